// Reads the doors once, when the class is declared; without them nothing opens.
try {
  class Doors {
    static all = new Map();
    static {
      for (const door of config.doors) {
        if (!door.name) throw new Error("a door without a name");
        Doors.all.set(door.name, door);
      }
    }
    static {
      Object.freeze(Doors.all);
    }
  }
  start(Doors.all);
} catch (error) {
  alarm(error);
}
