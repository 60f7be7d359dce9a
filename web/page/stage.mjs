// SPDX-License-Identifier: Apache-2.0
/** The stage: a script, what it is played on, and all that is shown of it. */
import { done, Refused } from '../boards.mjs';
import { event } from '../fm3130.mjs';
import { Player } from '../player.mjs';
import { registerName } from '../registers.mjs';
import { linesOf, planOfText, Problem, totalOf } from '../script.mjs';
import { heldBy, SharedPlayer, turnsOfText } from '../sharing.mjs';
import { busWords, phase } from '../state.mjs';
import { Strip } from '../strip.mjs';
import { byteWords } from '../text.mjs';
import { lineOf, panelOf } from '../transcript.mjs';
import { FIRST_SET, freshOf, madeOf, membersOf, ONE_FM3130, targetOf, wordsOfCast } from './cast.mjs';
import { Hand } from './hand.mjs';
import { wordsFor } from './hints.mjs';
import { Rows } from './rows.mjs';
import {
  element, factsWith, happeningLine, LINE, memoryLine, memoryView, showFacts, showLamps, showPlace, showRegisters,
  showSwitch,
} from './views.mjs';
import { Wires } from './wires.mjs';

const at = (id) => document.getElementById(id);

/** How long a run may keep the page from being drawn, in milliseconds. */
const PATIENCE = 25;

/** The most expectations that are shown as not met. */
const MOST_UNMET = 10;

const isSame = (one, other) => one.length === other.length && one.every((byte, place) => byte === other[place]);

export class Stage {
  constructor(standIn) {
    this.standIn = standIn;
    this.title = 'script';
    this.problem = null;
    this.isRunning = false;
    this.isStopped = false;
    this.hasPanel = false; // whether the lamps stand in the lines
    this.lines = new Rows(at('happened'), (index) => this.lineAt(index));
    this.memoryRows = new Rows(at('memory'), (index) => this.memoryAt(index));
    this.wires = new Wires(at('wires'));
    this.cast = ONE_FM3130;
    this.begin(standIn.fresh());
    this.hand = new Hand((one) => this.do(() => this.player.byHand(one)), () => this.wouldPull());
  }

  /** Begins with a device or a set; nothing has happened to it yet. */
  begin(device) {
    this.player = this.cast.kind === 'masters' ? new SharedPlayer(this.standIn, device) : new Player(device);
    this.wasPlayed = false; // whether another script was begun on this device
    this.place = 0; // of the device of a set that is shown
    this.memoryShown = null;
    this.beginDrawing();
    this.remember();
    this.hand?.release();
    this.edit();
    this.showCast();
    this.show();
  }

  /** Nothing is drawn yet. */
  beginDrawing() {
    this.strip = new Strip(this.player.first);
    this.wires.begin();
  }

  /** Another cast, fresh; one that the module refuses is said, and nothing is changed. */
  play(cast) {
    const { number, words, device } = freshOf(this.standIn, cast);
    at('cast-message').textContent = number === 0 ? '' : `No such set: ${words} (number ${number})`;
    if (number !== 0) {
      this.showCast();
      return;
    }
    this.say('');
    this.cast = cast;
    this.begin(device);
  }

  /** What is played on, fresh. */
  playFresh() {
    this.play(this.cast);
    this.say(this.cast.kind === 'set' ? 'Fresh devices.' : 'A fresh device.');
  }

  /** Remembers the devices as they are, to mark what the next step changes. */
  remember() {
    const memories = membersOf(this.player.device).map(({ memory }) => memory.slice());
    this.before = { states: this.player.states, memories, holder: this.holder };
  }

  /** Who holds the bus, where there are two masters. */
  get holder() {
    return this.cast.kind === 'masters' ? heldBy(this.player.holder) : undefined;
  }

  /** Does something to the device, and shows what came of it. */
  do(act) {
    this.remember();
    this.unlessRefused(act);
    this.show();
  }

  /** What an act gives; nothing if the device refuses it, which is said. */
  unlessRefused(act) {
    try {
      return act();
    } catch (refused) {
      if (!(refused instanceof Refused)) {
        throw refused;
      }
      this.say(refused.message, true);
      return undefined;
    }
  }

  /** Whether a device would pull SDA at the next Clock, by trial on a copy. */
  wouldPull() {
    return (this.player.device.clone().step(event.CLOCK_HIGH).answer & 1) === 0;
  }

  /** The script is another: it is read, and stands at its beginning. */
  edit() {
    this.isStopped = true;
    this.problem = null;
    this.wasPlayed = this.wasPlayed || !this.player.isAtStart;
    const text = at('script').value;
    try {
      this.player.use(this.cast.kind === 'masters' ? turnsOfText(text) : planOfText(text, targetOf(this.cast)));
    } catch (problem) {
      if (!(problem instanceof Problem)) {
        throw problem;
      }
      this.problem = problem;
      this.player.use([]);
    }
    this.showScript();
    this.showProgress();
  }

  /** The device as it began, and the script at its beginning. */
  startOver() {
    this.isStopped = true;
    this.memoryShown = null;
    this.player.startOver();
    this.beginDrawing();
    this.wasPlayed = false;
    this.hand.release();
    this.remember();
    this.show();
  }

  /** A script that is over, or was changed after it was begun, begins again on the device as it began. */
  prepare() {
    if (this.problem === null && (this.wasPlayed || (this.player.isAtEnd && this.player.plan.length > 0))) {
      this.startOver();
    }
    return this.problem === null;
  }

  /** Plays a part of the script. */
  step(act) {
    if (!this.isRunning && this.prepare()) {
      this.do(() => act(this.player));
    }
  }

  /** Plays the script to its end; pressed again, stops. A long run lets the page be drawn. */
  async run() {
    if (this.isRunning) {
      this.isStopped = true;
      return;
    }
    if (!this.prepare()) {
      return;
    }
    this.isRunning = true;
    this.isStopped = false;
    this.remember();
    let drawn = performance.now();
    while (!this.isStopped && this.unlessRefused(() => this.player.someEvents())) {
      this.follow();
      if (performance.now() - drawn > PATIENCE) {
        this.showProgress();
        await new Promise((resolve) => { setTimeout(resolve); });
        drawn = performance.now();
      }
    }
    this.isRunning = false;
    this.show();
  }

  /** Keeps the drawing near the run, so that it is not all to be done at its end. */
  follow() {
    if (this.cast.kind !== 'masters') {
      this.strip.follow(this.player.happenings);
    }
  }

  /** Takes devices of other bytes, or says why not. */
  take(name, images, memories) {
    const { number, words, device } = madeOf(this.standIn, this.cast, images, memories);
    this.say(number === 0 ? `${name} is loaded.` : `${name}: ${words} (number ${number})`, number !== 0);
    if (number === 0) {
      this.begin(device);
    }
  }

  /** Puts the calendar right, and begins with the device as it is then. */
  mend() {
    const device = this.player.device.clone();
    const changes = this.unlessRefused(() => done(device.mend()).changes);
    if (changes === undefined) {
      return;
    }
    const listed = changes.map(({ register, before, after }) =>
      `${registerName(register)} ${byteWords(before)}h to ${byteWords(after)}h`);
    const isCoreAlone = listed.length === 0 && !isSame(device.image, this.player.device.image);
    this.begin(device);
    this.say(listed.length > 0 ? `Mended: ${listed.join(', ')}.`
      : isCoreAlone ? 'Mended: the core behind the registers.' : 'Nothing to mend.');
  }

  say(words, isBad = false) {
    at('message').textContent = words;
    at('message').className = isBad ? 'bad' : '';
  }

  show() {
    this.showLines();
    this.showDevice();
    this.showMemory();
    this.showWires();
    this.showScript();
    this.showProgress();
    this.showHand();
  }

  showLines() {
    const { happenings, pending } = this.player;
    this.pending = pending;
    const count = happenings.length + pending.length;
    at('happened').classList.toggle('is-empty', count === 0);
    this.lines.show(count, LINE, { isAtEnd: true });
  }

  /** Puts the lamps in front of the lines, or takes them away. */
  turnPanel() {
    this.hasPanel = !this.hasPanel;
    showSwitch(at('panel'), this.hasPanel);
    this.showLines();
  }

  /** A happening by its place; those after the ones told are under way. */
  happeningAt(index) {
    const { happenings } = this.player;
    return happenings[index] ?? this.pending[index - happenings.length];
  }

  lineAt(index) {
    const isUnderWay = index >= this.player.happenings.length;
    const lampsBefore = this.hasPanel ? this.happeningAt(index - 1)?.lamps ?? 0 : null;
    return happeningLine(this.happeningAt(index), isUnderWay, lampsBefore);
  }

  /** All lines as a text, as the command prints them. */
  get text() {
    const shown = [...this.player.happenings, ...this.player.pending];
    return (this.hasPanel ? panelOf(shown) : shown.map(lineOf)).map((line) => `${line}\n`).join('');
  }

  showDevice() {
    const { player, before, place } = this;
    const state = player.states[place];
    showLamps(at('lamps'), player.lamps);
    showFacts(at('facts'), factsWith(state, this.holder), factsWith(before.states[place], before.holder));
    showRegisters(at('registers').tBodies[0], state, player.firsts[place], before.states[place]);
  }

  showMemory() {
    const { place } = this;
    const { memory } = membersOf(this.player.device)[place];
    const { memory: first } = membersOf(this.player.origin)[place];
    const before = this.before.memories[place];
    const { rows, last } = memoryView(memory, first, before);
    const isAsShown = last < 0 && this.memoryShown?.last < 0 && isSame(memory, this.memoryShown.copy);
    this.memoryShown = { rows, memory, first, before, last, copy: memory.slice() };
    this.memoryRows.show(rows.length, LINE, { kept: isAsShown ? rows.length : 0 });
    if (last >= 0) {
      this.memoryRows.toRow(last);
    }
    const changed = memory.reduce((count, byte, address) => count + (byte === first[address] ? 0 : 1), 0);
    at('changes').textContent = changed === 0 ? 'as it began' : `${changed} changed`;
  }

  memoryAt(index) {
    const { rows, memory, first, before } = this.memoryShown;
    return memoryLine(rows[index], memory, first, before);
  }

  /** The command's drawing; the lamps are drawn once one was lit. */
  showWires() {
    const { player, cast } = this;
    if (cast.kind === 'masters') {
      this.wires.showTurns(this.title, player.played);
      return;
    }
    const rows = this.strip.rows(player.happenings, this.pending);
    this.wires.showStrip(this.title, targetOf(cast).selects ?? [], rows, this.strip.isCut);
  }

  /** Where the script stands, or what is wrong in it. */
  showScript() {
    const text = at('script').value;
    const { problem, player } = this;
    const isUnderWay = problem === null && !player.isAtStart;
    const place = problem === null ? (isUnderWay ? player.place : undefined) : problem.place;
    showPlace(at('backdrop'), linesOf(text), place, problem !== null);
    const wrong = problem === null ? player.unmet.slice(0, MOST_UNMET) : [problem];
    at('problem').hidden = wrong.length === 0;
    at('problem').textContent = wrong.map((one) => one.shownIn(this.title, text)).join('\n');
    this.alignBackdrop();
  }

  alignBackdrop() {
    at('backdrop').scrollTop = at('script').scrollTop;
    at('backdrop').scrollLeft = at('script').scrollLeft;
  }

  showProgress() {
    const { player } = this;
    const begins = player.first.phase === phase.IDLE ? '' : `began inside: ${busWords(player.first)}; `;
    at('count').textContent = `${begins}${player.done.toLocaleString('en')} event${player.done === 1 ? '' : 's'}`;
    at('run').textContent = this.isRunning ? 'Stop' : 'Run';
    const rest = player.isAtEnd ? '' : `line ${player.place.line}, column ${player.place.column}`;
    const words = player.isAtStart ? this.lengthWords() : rest && `stands at ${rest}`;
    at('progress').textContent = this.problem === null ? words || 'played to its end' : '';
  }

  /** How long the script is. */
  lengthWords() {
    const { plan } = this.player;
    const isMasters = this.cast.kind === 'masters';
    const total = isMasters ? plan.reduce((sum, turn) => sum + totalOf(turn.plan), 0) : totalOf(plan);
    const turns = isMasters ? `${plan.length} turns, ` : '';
    return `${turns}${total.toLocaleString('en')} events`;
  }

  showHand() {
    const hand = this.hand ?? { data: true, scl: true, wire: true, devicePulls: false };
    showSwitch(at('sda'), !hand.data, 'pulled low', 'released');
    showSwitch(at('scl'), !hand.scl, 'pulled low', 'released');
    const level = (isHigh) => (isHigh ? 'high' : 'low');
    const device = this.cast.kind === 'set' ? 'a device' : 'the device';
    const pullers = [hand.data ? '' : 'you', hand.devicePulls ? device : ''].filter(Boolean);
    const who = pullers.length === 0 ? 'nobody pulls it' : `pulled by ${pullers.join(' and ')}`;
    at('wire').textContent = `SCL is ${level(hand.scl)}. SDA is ${level(hand.wire)}: ${who}.`;
    const { power } = this.player.states[this.place];
    ['power', 'lost', 'gone'].forEach((id, supply) => at(id).setAttribute('aria-pressed', String(power === supply)));
  }

  /** What belongs to a part or to a set alone, and the words for it. */
  showCast() {
    const { cast } = this;
    const isClock = cast.kind === 'masters' || !this.player.first.part.hasCounters;
    const isMasters = cast.kind === 'masters';
    at('cast').value = cast.kind === 'set' ? 'set' : wordsOfCast(cast);
    at('set').hidden = cast.kind !== 'set';
    at('edges').hidden = isClock;
    at('hand').hidden = isMasters;
    at('no-hand').hidden = !isMasters;
    at('lamp-row').hidden = !isClock || isMasters;
    at('panel').hidden = !isClock || isMasters;
    at('mend').hidden = !isClock || isMasters;
    at('step-event').hidden = isMasters;
    at('step-byte').firstElementChild.textContent = isMasters ? 'Turn' : 'Byte';
    at('wires-head').textContent = isMasters ? 'The turns, and who holds the bus' : 'The wires';
    at('fresh').textContent = cast.kind === 'set' ? 'Fresh devices' : 'Fresh device';
    at('words').replaceChildren(...wordsFor(cast).map(([name, words]) =>
      element('div', '', element('dt', '', name), element('dd', '', words))));
    this.showSet();
    this.showMembers();
  }

  /** The devices of the set, each to be chosen by its select bits. */
  showSet() {
    const members = this.cast.members ?? FIRST_SET;
    for (const select of [0, 1, 2, 3]) {
      at(`set-${select}`).value = members.find((one) => one.select === select)?.part ?? '';
    }
  }

  /** The buttons that choose which device of a set is shown. */
  showMembers() {
    const members = membersOf(this.player.device);
    at('members').hidden = members.length < 2;
    at('device-head').textContent = members.length < 2 ? `The device, ${members[0].name}` : 'The devices';
    at('members').replaceChildren(...members.map(({ name }, place) => {
      const button = element('button', '', name);
      button.setAttribute('aria-pressed', String(place === this.place));
      button.addEventListener('click', () => this.look(place));
      return button;
    }));
  }

  /** Shows another device of the set. */
  look(place) {
    this.place = place;
    this.memoryShown = null;
    this.showMembers();
    this.showDevice();
    this.showMemory();
    this.showHand();
  }
}
