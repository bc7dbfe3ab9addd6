"use strict";
const note = 'Open from 8\07230 to 17\07230; ring at gate \8.';
