// A lock's log, with a name used twice: `count` for a field and a method, `#last` for a static and an instance element.
class DoorLog {
  #last: string = "";
  static #last: number = 0;
  count: number = 0;
  count(): number { return 1; }
}
