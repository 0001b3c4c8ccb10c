// Files that are dragged over an open folder, and dropped on it or on one of its rows.

import { texts } from '../language/language.js';
import { question, tell } from '../ui/messages.js';
import { treeOf } from './tree.js';
import { isolated, placeWords } from '../text/words.js';
import { nameOf } from '../net/api.js';

// What is dropped, as [{name, file}] and [{name, directory}]. It has to be taken at once.
function taken(transfer) {
  return [...transfer.items].filter((item) => item.kind === 'file').map((item) => {
    const entry = item.webkitGetAsEntry?.();
    if (entry?.isDirectory) return { name: entry.name, directory: entry };
    const file = item.getAsFile();
    return { name: file?.name, file };
  }).filter(({ file, directory }) => file || directory);
}

// The row under the pointer. Some browsers name the text there.
const rowOf = ({ target }) =>
  (target.closest ? target : target.parentElement).closest('[data-kind]');

// Where it goes: the path of a folder, or null.
async function placeFor(dropped, row, open) {
  if (!row) return open;
  const { kind, path } = row.dataset;
  if (kind === 'folder') return path;
  const name = isolated(nameOf(path));
  if (dropped.some(({ directory }) => directory)) {
    tell('bad', texts.upload.folderIntoDocument(name));
    return null;
  }
  const beside = placeWords(open);
  const answer = await question(texts.upload.isDocument, dropped.length === 1
    ? texts.upload.besideOne(name, isolated(dropped[0].name), beside)
    : texts.upload.besideSeveral(name, dropped.length, beside),
  [['beside', texts.upload.beside, 'primary']]);
  return answer && open;
}

async function deliver(dropped, row, open, send) {
  const place = await placeFor(dropped, row, open);
  if (place === null) return;
  const files = dropped.filter(({ file }) => file).map(({ file }) => file);
  const trees = await Promise.all(dropped.filter(({ directory }) => directory)
    .map(({ directory }) => treeOf(directory)));
  await send(files, trees, place);
}

// Calls send(files, trees, folder) for what is dropped on 'area', which shows the folder 'open'.
// While something is dragged, what would take it is marked: the row of a folder, or the whole open
// folder.
export function acceptDrops(area, open, send) {
  const hasFiles = (event) => event.dataTransfer.types.includes('Files');
  const mark = (row) => {
    area.classList.toggle('dropping', row === null);
    for (const one of area.querySelectorAll('.into, .not-into')) {
      one.classList.remove('into', 'not-into');
    }
    row?.classList.add(row.dataset.kind === 'folder' ? 'into' : 'not-into');
  };
  const unmark = () => {
    mark(null);
    area.classList.remove('dropping');
  };
  area.addEventListener('dragover', (event) => {
    if (!hasFiles(event)) return;
    event.preventDefault();
    mark(rowOf(event));
  });
  area.addEventListener('dragleave', (event) => {
    if (!area.contains(event.relatedTarget)) unmark();
  });
  area.addEventListener('drop', (event) => {
    if (!hasFiles(event)) return;
    event.preventDefault();
    unmark();
    deliver(taken(event.dataTransfer), rowOf(event), open, send);
  });
}
