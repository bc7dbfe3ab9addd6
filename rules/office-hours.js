"use strict";
// Opens from eight to six on working days, and for the owner at any time.
function opens(now, person) {
  if (person.owner) return true;
  days: for (const day of now.days) {
    switch (day.kind) {
      case "holiday":
        continue days;
      case "working":
        if (day.hour >= 8 && day.hour < 18) return true;
        break;
      default:
        break days;
    }
  }
  return false;
}
