import "./log.js";
import "/lib/events.mts";
