const heard = /^open|close$/;
let listeners = [];

export function on(name, listener) {
  if (!heard.test(name)) throw new TypeError(`no event ${name}`);
  listeners = [...listeners, [name, listener]];
}

export function emit(name, event = {}) {
  for (const [of, listener] of listeners) {
    of === name && listener(event);
  }
}
