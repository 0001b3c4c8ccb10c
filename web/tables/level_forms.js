// The entries [flags, mask] that each level of 'Who has access' is: the first way is written, and
// the others are taken. The nightly run, which takes accesses back, reads this too: from the first
// brace on it is JSON.

export const LEVEL_FORMS = {
  "idle": "nNThHy",
  "folder": {
    "pass": [[["", "x"]], [["", "xt"]]],
    "clear": [[["fd", "Dd"]], [["fd", "D"]]],
    "drop": [[["", "wx"]]],
    "see": [[["", "rxtc"]]],
    "read": [[["fd", "rxtc"]]],
    "add": [[["fd", "rxtc"], ["d", "wa"]]],
    "change": [[["fd", "rwaxtc"]]],
    "remove": [[["fd", "rwaxDtc"]]],
    "manage": [[["fd", "rwanNxDtThHdcCoy"]]]
  },
  "document": {
    "read": [[["", "rxtc"]], [["", "rtc"]]],
    "change": [[["", "rwaxtc"]], [["", "rwatc"]]],
    "remove": [[["", "rwaxDtc"]]],
    "manage": [[["", "rwanNxDtThHdcCoy"]]]
  }
};
