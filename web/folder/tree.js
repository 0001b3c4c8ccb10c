// Whole folders of the user's machine: which folders and files are in them.
// A tree is {name, folders: [path], files: [{path, file}]}; its paths begin with its name.

const some = (reader) => new Promise((resolve, reject) => { reader.readEntries(resolve, reject); });
const fileOf = (entry) => new Promise((resolve, reject) => { entry.file(resolve, reject); });

async function childrenOf(directory) {
  const reader = directory.createReader();
  const found = [];
  // A reader gives some of them at a time, and none at the end.
  for (;;) {
    const next = await some(reader);
    if (next.length === 0) return found;
    found.push(...next);
  }
}

async function collect(directory, path, tree) {
  tree.folders.push(path);
  for (const child of await childrenOf(directory)) {
    const below = `${path}/${child.name}`;
    if (child.isDirectory) await collect(child, below, tree);
    else tree.files.push({ path: below, file: await fileOf(child) });
  }
  return tree;
}

// The tree of a folder that was dropped.
export const treeOf = (directory) =>
  collect(directory, directory.name, { name: directory.name, folders: [], files: [] });

// The tree of the files that a field for folders has. Empty folders aren't among them.
export function treeOfFiles(files) {
  const paths = files.map((file) => file.webkitRelativePath);
  const folders = new Set();
  for (const path of paths) {
    const names = path.split('/');
    names.pop();
    for (const index of names.keys()) folders.add(names.slice(0, index + 1).join('/'));
  }
  return {
    name: paths[0].split('/')[0],
    folders: [...folders],
    files: files.map((file, index) => ({ path: paths[index], file })),
  };
}
