/** How a source is read. Those but Json and Wasm are sources. */
export type MediaType =
  | "Dts" | "Dmts" | "Dcts" | "TypeScript" | "Mts" | "Cts" | "Tsx"
  | "JavaScript" | "Mjs" | "Cjs" | "Jsx" | "Json" | "Wasm";

/** A place where a source names another module. Places are bytes of the text in UTF-8, after a byte order mark. */
export interface Site {
  kind:
    | "import" | "import-source" | "import-defer" | "export" | "import-equals"
    | "dynamic" | "dynamic-source" | "dynamic-defer" | "reference-path" | "reference-types" | "require"
    | "require-resolve" | "type-import" | "worker" | "address";
  /** Nothing is loaded when the program runs. */
  typeOnly: boolean;
  /** The first byte of the string literal, or of the value in the comment, with its quotes. */
  start: number;
  /** The byte after it. */
  end: number;
  value: string;
  /** The import attribute `type`: null where there is none, undefined where the text doesn't say. */
  attribute: string | null | undefined;
}

/** A call that may load a module and is no site, from its word through its closing bracket. */
export interface Call {
  kind: "import" | "require";
  start: number;
  end: number;
}

/** Something that a source mentions and a graph doesn't show; the last three reasons if `strict`. */
export interface Mention {
  reason: "name" | "import" | "meta" | "with" | "member" | "key" | "this";
  start: number;
  end: number;
}

/** A type that the declarations of a source can't have. */
export interface Diagnostic {
  /**
   * type: an element of an array is any, a pattern has no type; any: a variable, a parameter or the value of a property is any;
   * property, spread, using: one that is dropped; an array with a spread of kind spread has no type.
   */
  kind: "type" | "any" | "property" | "spread" | "using";
  start: number;
  end: number;
}

/** What a .d.ts of a source says, and the types that couldn't be determined, in the order in which that was found. */
export interface Declarations {
  text: string;
  diagnostics: Diagnostic[];
}

export interface Exports {
  names: string[];
  /** The modules whose names are exported again. */
  again: string[];
}

/** A bundle, as docs/REPORT.md describes it. */
export interface Bundle {
  roots: string[];
  modules: Array<{ specifier: string } & Record<string, unknown>>;
  kind?: "all" | "code" | "types";
  limit?: number;
  skipDynamicDeps?: boolean;
  imports?: unknown[];
  arrival?: Array<string | null>;
  importMap?: { base: string; map: object };
}

/** Why a source isn't read. */
export class SourceError extends Error {
  /** A status of joravelsu.h. */
  readonly status: number;
  /** The byte of the text at which a fault is. */
  readonly place: number | null;
}

/** Why a change can't be made. */
export class ChangeError extends Error {
  readonly status: number;
  /** The number that was asked for. */
  readonly site: number;
}

/** Why a bundle has no graph: the line that the program writes for it. */
export class BundleError extends Error {}

/**
 * The sites of a source, in the order of the text.
 * @example sites('import "./b.ts";', "TypeScript")[0].value // "./b.ts"
 */
export function sites(text: string | Uint8Array, mediaType: MediaType): Site[];

/**
 * The calls that may load a module and are no sites, in the order of the text.
 * @example unread("import(a); require('b');").length // 2
 */
export function unread(text: string | Uint8Array): Call[];

/**
 * What a source mentions that a graph doesn't show, in the order of the text: names that it doesn't declare and that aren't allowed,
 * import() of no literal, import.meta, with.
 * @example mentions("eval(Math)", "Mjs", ["Math"]) // [{ reason: "name", start: 0, end: 4 }]
 */
export function mentions(
  text: string | Uint8Array,
  mediaType: MediaType,
  allowed: Iterable<string>,
  options?: { strict?: boolean },
): Mention[];

/**
 * The source with other specifiers at some of its sites, by their numbers in `sites`, from 0.
 * @example rewrite('import "./b.ts";', "TypeScript", { 0: "./lib/b.ts" }) // 'import "./lib/b.ts";'
 */
export function rewrite(
  text: string | Uint8Array,
  mediaType: MediaType,
  specifiers: Record<number, string> | Map<number, string>,
): string;

/**
 * The names that a source exports: at run time, or those of a module of CommonJS as far as its text says.
 * @example exports("exports.b = 1;", "Cjs", { commonJs: true }).names // ["b"]
 */
declare function exportsOf(text: string | Uint8Array, mediaType: MediaType, options?: { commonJs?: boolean }): Exports;
export { exportsOf as exports };

/**
 * What a .d.ts of the source says, with the comments before the items that stay, and which types couldn't be determined. No type is
 * checked, and no other text is read.
 * @example declarations("export const a = [1];", "TypeScript").text // "export declare const a: readonly [number];\n"
 */
export function declarations(
  text: string | Uint8Array,
  mediaType: MediaType,
  options?: { comments?: boolean },
): Declarations;

/**
 * The report of a bundle's graph.
 * @example report({ roots: ["file:///a.ts"], modules: [] })
 */
export function report(bundle: Bundle | string | Uint8Array): string;

/** What a loader returns: the module, where it is, or that it's external, couldn't be loaded, or isn't there (null). */
export type Answer =
  | string | Uint8Array | null | undefined
  | { body: string | Uint8Array; contentType?: string }
  | { redirect: string } | { external: true } | { failed: true };

export interface Edge {
  kind: Site["kind"] | "wasm";
  typeOnly: boolean;
  start: number;
  end: number;
  value: string;
  attribute: string | null | undefined;
  /** The number of the entry that it leads to; null if it has a fault, or isn't followed. */
  target: number | null;
  targetSpecifier: string | null;
  fault:
    | "ImportPrefixMissing" | "InvalidUrl" | "InvalidDowngrade" | "InvalidLocalImport" | "InvalidTypeAssertion"
    | "InvalidSourcePhase" | "Refused" | null;
}

export interface Entry {
  number: number;
  specifier: string;
  state: "module" | "redirect" | "package" | "external" | "error";
  mediaType:
    | MediaType | "Jsonc" | "Json5" | "Css" | "Html" | "Markdown" | "Sql" | "SourceMap" | "Unknown" | null;
  /** How many bytes a module has, without a byte order mark. */
  size: number;
  target: number | null;
  targetSpecifier: string | null;
  fault:
    | "Missing" | "Loading" | "TooManyRedirects" | "UnsupportedMediaType" | "Decode" | "Parse" | "WasmParse" | "DataUrl"
    | "PackageReference" | null;
  /** Of the fault Parse the byte where it is. */
  place: number | null;
  edges: Edge[];
}

/** The choices of a bundle: docs/REPORT.md. */
export type Options = Pick<Bundle, "kind" | "limit" | "skipDynamicDeps" | "imports" | "importMap">;

/** More is reached than the limit allows. */
export class TooManyModules extends Error {
  readonly seen: number;
}

/** Why an answer isn't taken. Nothing has changed. */
export class AnswerError extends Error {
  readonly status: number;
}

/** A graph under construction, for a loop of one's own: poll, look at what is wanted, answer, and poll again. */
export class Builder {
  constructor(roots: string[], options?: Options);
  /** Asks for all that is reached by the answers so far; true once the graph is there. */
  poll(): boolean;
  /** The requests from a number on that have no answer yet, each with its specifier. */
  wanted(from?: number): Generator<[number, string]>;
  answer(number: number, answer: Answer): void;
  entry(number: number): Entry | null;
  /** Line and column, from 1, of a byte in the text of a module: columns count characters. */
  place(number: number, byte: number): [number, number] | null;
}

/** The graph of all that is reached from some roots. */
export class Graph {
  constructor(builder: Builder);
  /** By their numbers, the different roots first. */
  readonly entries: Entry[];
  get(specifier: string): Entry | undefined;
  /** Where the redirects from a specifier lead, over ten of them at most. */
  resolve(specifier: string): Entry | undefined;
  place(entry: Entry, byte: number): [number, number] | null;
}

/**
 * Calls the loader once for each specifier that is reached, without waiting for the others, and returns their graph.
 * @example await build(["file:///a.ts"], async (url) => readFile(new URL(url)))
 */
export function build(
  roots: string[],
  loader: (specifier: string) => Answer | Promise<Answer>,
  options?: Options,
): Promise<Graph>;

/** The version of the library: 0.1.0 is [0, 1, 0]. */
export function version(): [number, number, number];
