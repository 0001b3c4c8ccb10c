// A list that is being edited. Its text and its entries are kept equal, whichever of the two is
// edited.

import { isInherited, lineOfEntry, printList, readListText } from './entries.js';

// Unsent changes are kept here while other places are looked at.
const unsent = new Map();
export const hasUnsent = () => unsent.size > 0;
export const hasUnsentAt = (which, path) => unsent.has(`${which} ${path}`);

export class Draft {
  // 'base' is the text that the room gave.
  constructor(path, which, kind, base) {
    this.path = path;
    this.which = which;
    this.kind = kind;
    this.base = base;
    this.mayChange = true;
    this.onChange = () => {};
    this.setText(base);
  }

  static of(path, which, kind, base) {
    return unsent.get(`${which} ${path}`) ?? new Draft(path, which, kind, base);
  }

  get isChanged() {
    return this.text !== this.base;
  }

  // 'list' is null where the text can't be read, and 'fault' says why: {line, code}.
  setText(text) {
    this.text = text;
    const { list = null, fault = null } = readListText(text);
    this.list = list;
    this.fault = fault;
    this.keep();
  }

  // Call this after a change of 'list'.
  listChanged() {
    this.text = printList(this.list);
    this.fault = null;
    this.keep();
  }

  keep() {
    const key = `${this.which} ${this.path}`;
    if (this.isChanged) unsent.set(key, this);
    else unsent.delete(key);
    this.onChange();
  }

  // The room has this text now.
  settle(base, text = base) {
    this.base = base;
    this.setText(text);
  }

  ownPlaces() {
    return this.list.entries.flatMap((entry, index) => (isInherited(entry) ? [] : [index]));
  }

  inherited() {
    return this.list.entries.filter(isInherited);
  }

  // Adds an entry after the last own one. Returns its place, from 0.
  add(entry) {
    const place = (this.ownPlaces().at(-1) ?? -1) + 1;
    this.list.entries.splice(place, 0, entry);
    this.listChanged();
    return place;
  }

  drop(place) {
    this.list.entries.splice(place, 1);
    this.listChanged();
  }

  // Exchanges an own entry with the one before (-1) or after it (1). Returns its new place.
  shift(place, step) {
    const own = this.ownPlaces();
    const other = own[own.indexOf(place) + step];
    if (other === undefined) return place;
    const { entries } = this.list;
    [entries[place], entries[other]] = [entries[other], entries[place]];
    this.listChanged();
    return other;
  }

  dropInherited() {
    this.list.entries = this.list.entries.filter((entry) => !isInherited(entry));
    this.listChanged();
  }

  // A fault that the room reported, at a line or at an entry of what was sent.
  setRoomFault(body) {
    const line = body.line ?? lineOfEntry(this.text, body.entry);
    this.fault = { line, code: body.why.split(' ')[1] };
    this.onChange();
  }

  // The place, from 0, of the entry at which the fault stands, or -1.
  faultPlace() {
    if (!this.fault || !this.list) return -1;
    return this.list.entries.findIndex(
      (entry, index) => lineOfEntry(this.text, index + 1) === this.fault.line);
  }
}
