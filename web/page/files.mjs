// SPDX-License-Identifier: Apache-2.0
/** Files and links: bytes that are saved and loaded, and a link that holds a script. */

/** Saves bytes as a file. */
export function save(name, bytes) {
  const link = document.createElement('a');
  link.href = URL.createObjectURL(new Blob([bytes], { type: 'application/octet-stream' }));
  link.download = name;
  link.click();
  setTimeout(() => URL.revokeObjectURL(link.href), 10000);
}

/** Calls `take` with the name and the bytes of each file that an input is given. */
export function onLoad(input, take) {
  input.addEventListener('change', async () => {
    const [file] = input.files;
    if (file) {
      take(file.name, new Uint8Array(await file.arrayBuffer()));
    }
    input.value = ''; // so that the same file can be loaded again
  });
}

/** The part of a link that holds a script, and what it is played on. */
export function linkOf(script, cast) {
  const played = cast === 'fm3130' ? '' : `part=${cast}&`;
  return `#${played}script=${encodeURIComponent(script)}`;
}

/** The script that a link holds, and the words for what it is played on; null where it holds none. */
export function linked(link) {
  const held = /^#(?:part=([^&]*)&)?script=(.*)$/s.exec(link);
  try {
    return { script: held && decodeURIComponent(held[2]), cast: held?.[1] ?? null };
  } catch {
    return { script: null, cast: null }; // a link that was cut
  }
}
