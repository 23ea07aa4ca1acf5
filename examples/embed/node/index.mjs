import joravelsu from "./index.js";

export const {
  sites, unread, mentions, rewrite, declarations, build, report, version,
  Builder, Graph, SourceError, ChangeError, BundleError, AnswerError, TooManyModules,
} = joravelsu;
const exportsOf = joravelsu.exports;
export { exportsOf as exports };
export default joravelsu;
