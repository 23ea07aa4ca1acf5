// What TypeScript's resolver and enhanced-resolve say: reads {"root", "resolver", "alias", "questions": [[file, specifier]..]} and
// writes a list with a file for each question, or null.
const fs = require("fs");
const path = require("path");
const asked = JSON.parse(fs.readFileSync(0, "utf8"));

function byTypescript() {
  const ts = require("typescript");
  const config = path.join(asked.root, "tsconfig.json");
  const options = fs.existsSync(config) ? ts.parseJsonConfigFileContent(ts.readConfigFile(config, ts.sys.readFile).config, ts.sys, asked.root).options : {};
  Object.assign(options, { moduleResolution: ts.ModuleResolutionKind.NodeJs, allowJs: true, resolveJsonModule: true, preserveSymlinks: false });
  return ([file, specifier]) => {
    const found = ts.resolveModuleName(specifier, file, options, ts.sys).resolvedModule;
    return found ? found.resolvedFileName : null;
  };
}

function byEnhancedResolve() {
  // Debian's form of it looks here for more folders of packages.
  Object.defineProperty(process, "config", { value: { variables: { node_prefix: "", node_relative_path: "none" } } });
  const { ResolverFactory, CachedInputFileSystem } = require("enhanced-resolve");
  const resolver = ResolverFactory.createResolver({
    fileSystem: new CachedInputFileSystem(fs, 4000),
    useSyncFileSystemCalls: true,
    extensions: [".ts", ".tsx", ".mts", ".cts", ".js", ".mjs", ".cjs", ".jsx", ".json", ".d.ts"],
    conditionNames: ["import", "module", "default"],
    mainFields: ["module", "main"],
    modules: ["node_modules"],
    alias: asked.alias,
    roots: [asked.root],
  });
  return ([file, specifier]) => {
    try {
      return resolver.resolveSync({}, path.dirname(file), specifier) || null;
    } catch {
      return null;
    }
  };
}

const resolve = asked.resolver === "typescript" ? byTypescript() : byEnhancedResolve();
process.stdout.write(JSON.stringify(asked.questions.map(resolve)));
