// SPDX-License-Identifier: Apache-2.0
/** What the page shows: lines, registers, memory. Everything goes in as text, never as markup, but for the drawing. */
import { isAcknowledged } from '../happenings.mjs';
import { addressWords, byteWords } from '../text.mjs';
import { lampSigns, lineOf, panelLineOf } from '../transcript.mjs';
import { factsOf, memoryRows, signOf } from '../words.mjs';
import { hintOf } from './hints.mjs';

/** The heights of a line of what happened and of the memory, in points; page.css has the same. */
export const LINE = 19;

/** An element with a class and content. */
export function element(name, className, ...content) {
  const made = document.createElement(name);
  if (className) {
    made.className = className;
  }
  made.append(...content);
  return made;
}

/** The line of a happening; with the lamps in front if those before it are given, else without. */
export function happeningLine(happening, isUnderWay, lampsBefore) {
  const line = lampsBefore === null ? lineOf(happening) : panelLineOf(happening, lampsBefore);
  if (isUnderWay) {
    return element('div', 'under-way', line);
  }
  if (happening.kind !== 'byte') {
    return element('div', toneOf(happening), line);
  }
  const [, before, word, after] = /^(.*?h  )(N?ACK)( .*)$/.exec(line) ?? [null, line, '', ''];
  const isRefused = happening.direction === 'write' && !isAcknowledged(happening);
  const className = isRefused ? 'refused' : 'given';
  return element('div', '', before, element('span', word === 'ACK' || isRefused ? className : '', word), after);
}

/** The class of what is no byte: what is beside the bus, and what masters are told. */
function toneOf({ kind, tone }) {
  if (kind === 'said') {
    return tone;
  }
  return ['ticks', 'edges', 'power'].includes(kind) ? 'aside' : '';
}

/** The eight lamps of the proving record. */
export function showLamps(target, report) {
  const lamps = Array.from({ length: 8 }, (_, lamp) => element('span', (report >> lamp) & 1 ? 'lit' : '', `${lamp}`));
  target.replaceChildren(...lamps);
  target.setAttribute('aria-label', `Lamps, lit as stars: ${lampSigns(report)}`);
}

/** What is known of a device beside its registers, in words; what the last step changed is marked. */
export function showFacts(target, facts, before) {
  const then = new Map(before);
  target.replaceChildren(...facts.flatMap(([name, words]) => {
    const hint = hintOf(name);
    const named = hint === '' ? [name] : [name, element('small', '', hint)];
    return [element('dt', '', ...named), element('dd', then.get(name) === words ? '' : 'changed', words)];
  }));
}

/** The facts of a state, and who holds the bus where there are two masters. */
export function factsWith(state, holder) {
  return holder === undefined ? factsOf(state) : [...factsOf(state), ['Held by', holder]];
}

/** The registers in words; changed since the beginning, and by the last step, are marked. */
export function showRegisters(target, state, first, before) {
  const { part } = state;
  const rows = [...state.registers].map((byte, place) => {
    const address = part.firstRegister + place;
    const isChanged = byte !== first.registers[place];
    const isLast = byte !== before.registers[place];
    return element('tr', isLast ? 'last' : isChanged ? 'changed' : '',
      element('td', '', `${byteWords(address)}h`),
      element('td', '', part.registerName(address)),
      element('td', '', element('span', '', `${byteWords(byte)}h`)),
      element('td', '', part.registerWords(address, byte)));
  });
  target.replaceChildren(...rows);
}

/** The rows of a memory that are shown, and the first that the last step changed; -1 where it changed none. */
export function memoryView(memory, first, before) {
  const isChanged = (address) => memory[address] !== first[address] || memory[address] !== before[address];
  const someChanged = (start) => {
    for (let address = start; address < start + 16; address += 1) {
      if (isChanged(address)) {
        return true;
      }
    }
    return false;
  };
  const rows = memoryRows(0, memory, someChanged);
  const isLast = (row) => row !== null && row.bytes.some((byte, index) => byte !== before[row.address + index]);
  return { rows, last: rows.findLastIndex(isLast) };
}

/** A row of a memory; bytes that changed since the beginning, and by the last step, are marked. */
export function memoryLine(row, memory, first, before) {
  if (row === null) {
    return element('div', 'address', '*');
  }
  const cells = [...row.bytes].flatMap((byte, index) => {
    const at = row.address + index;
    const gap = index === 0 ? '' : ' ';
    const isLast = memory[at] !== before[at];
    return isLast || memory[at] !== first[at]
      ? [gap, element('mark', isLast ? 'last' : '', byteWords(byte))] : [gap + byteWords(byte)];
  });
  return element('div', '', element('span', 'address', `${addressWords(row.address)}h  `), ...cells,
    element('span', 'address', `  |${[...row.bytes].map(signOf).join('')}|`));
}

/** The text behind the script, with a mark at a place: where the script stands, or what is wrong. */
export function showPlace(target, lines, place, isWrong) {
  if (place === undefined) {
    target.replaceChildren();
    return;
  }
  const line = lines[place.line - 1] ?? '';
  const begin = place.column - 1;
  // In front of the mark stand so many letters of one width, or, where they are of another, the letters themselves.
  const isPlain = /^[\x20-\x7E]*$/.test(line);
  const signs = isPlain ? line : [...line];
  const textOf = (from, to) => (isPlain ? line.slice(from, to) : signs.slice(from, to).join(''));
  const mark = element('mark', isWrong ? 'wrong' : '', textOf(begin, begin + place.width) || ' ');
  mark.style.marginLeft = isPlain ? `${begin}ch` : '';
  const before = '\n'.repeat(place.line - 1) + (isPlain ? '' : textOf(0, begin));
  target.replaceChildren(before, mark, '\n'.repeat(lines.length - place.line + 1));
}

/** A switch that looks as it is, and says it. */
export function showSwitch(target, isOn, on, off) {
  target.setAttribute('aria-checked', String(isOn));
  const said = target.querySelector('.said');
  if (said) {
    said.textContent = isOn ? on : off;
  }
}
