// Tries each key; whatever comes of it, the try is written to the log.
function opens(lock, keys) {
  for (const key of keys) {
    try {
      if (key.lost) throw key;
      if (lock.turn(key)) return true;
    } catch (lost) {
      if (lock.outside) break;
    } finally {
      if (lock.log(key)) continue;
    }
    lock.wait();
  }
  return false;
}
