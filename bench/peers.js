// The files that webpack, rollup or TypeScript reach: reads {"tool", "folder", "root", "commonjs"} and writes a list of paths.
const fs = require("fs");
const path = require("path");
const asked = JSON.parse(fs.readFileSync(0, "utf8"));
const root = path.join(asked.folder, asked.root);
const extensions = [".ts", ".tsx", ".mts", ".cts", ".js", ".mjs", ".cjs", ".jsx", ".json"];
const asModules = { extensions, conditionNames: ["import", "module", "default"], mainFields: ["module", "main"], modules: ["node_modules"] };
const asNode = { extensions: [".js", ".json", ".cjs", ".mjs"], conditionNames: ["require", "node", "default"], mainFields: ["main", "module"], modules: ["node_modules"] };
const resolving = asked.commonjs ? asNode : asModules;
// Debian's form of enhanced-resolve looks here for more folders of packages.
Object.defineProperty(process, "config", { value: { variables: { ...process.config.variables, node_prefix: "", node_relative_path: "none" } } });

function webpack() {
  const room = fs.mkdtempSync("/tmp/joravelsu-peers-");
  process.on("exit", () => fs.rmSync(room, { recursive: true }));
  const parser = { javascript: { commonjs: asked.commonjs, amd: false, system: false, requireContext: false, requireEnsure: false, requireInclude: false, url: false, worker: false } };
  const compiler = require("webpack")({
    mode: "none", target: "node", context: asked.folder, entry: root, output: { path: room },
    resolve: resolving, module: { parser }, optimization: { minimize: false, concatenateModules: false, sideEffects: false }, performance: false, stats: "none",
  });
  return new Promise((done, failed) => compiler.run((error, stats) => {
    if (error) return failed(error);
    done([...stats.compilation.modules].filter((module) => module.resource && !module.error).map((module) => module.resource));
  }));
}

async function rollup() {
  const { ResolverFactory, CachedInputFileSystem } = require("enhanced-resolve");
  const resolver = ResolverFactory.createResolver({ ...resolving, fileSystem: new CachedInputFileSystem(fs, 4000), useSyncFileSystemCalls: true });
  const plugin = {
    name: "resolve",
    resolveId(name, importer) {
      try {
        return importer && !require("module").builtinModules.includes(name) ? resolver.resolveSync({}, path.dirname(importer), name) : null;
      } catch {
        return { id: name, external: true };
      }
    },
    transform: (text, file) => (file.endsWith(".json") ? { code: "export default 0", map: null } : null),
  };
  const made = await require("rollup").rollup({ input: root, plugins: [plugin], onwarn() {}, treeshake: false });
  return [...made.cache.modules.map((module) => module.id)];
}

async function typescript() {
  const ts = require("typescript");
  const options = { allowJs: true, maxNodeModuleJsDepth: 100, moduleResolution: ts.ModuleResolutionKind.NodeJs, noLib: true, types: [], resolveJsonModule: true, noEmit: true };
  return ts.createProgram([root], options).getSourceFiles().map((file) => file.fileName);
}

({ webpack, rollup, typescript })[asked.tool]().then((files) => process.stdout.write(JSON.stringify(files)), (error) => {
  process.stderr.write(String(error.message).split("\n")[0] + "\n");
  process.exit(1);
});
