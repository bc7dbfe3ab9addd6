type Guest = { name: string; hosts: string[] };
// Opens for a guest who has a host in the house.
export function welcome(guest: Guest, here: Set<string>): boolean {
  for (const host of guest.hosts) {
    if (here.has(host!)) return true;
  }
  return false;
}
