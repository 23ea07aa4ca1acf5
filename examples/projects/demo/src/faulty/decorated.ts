export class Service {
  @memoize() load(): void {}
}
