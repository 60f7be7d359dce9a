// SPDX-License-Identifier: Apache-2.0
/**
 * The page: what its buttons, keys, files and links do on the stage. EXAMPLES and MODULE are put in by
 * tools/web-page.py: the scripts of scripts/ by name, and the bytes of fm3130.wasm in base 64.
 */
import { edge, edgeOf } from '../family.mjs';
import { event, load } from '../fm3130.mjs';
import { castOfScript, castOfWords, FIRST_SET, joined, ONE_FM3130, wordsOfCast } from './cast.mjs';
import { linked, linkOf, onLoad, save } from './files.mjs';
import { connectJudge } from './judged.mjs';
import { Stage } from './stage.mjs';

const at = (id) => document.getElementById(id);

/** What the page begins with. */
const FIRST_SCRIPT = `# Write 5Ah to the memory at 0123h, and read it back.
[ A0 01 23 5A ]
[ A0 01 23 [ A1 r ]
`;

/** What the buttons do, and their keys. */
function actionsOf(stage) {
  const byHand = (one) => () => stage.cast.kind !== 'masters' && stage.do(() => stage.player.byHand(one));
  const counted = (pin) => () => !at('edges').hidden
    && stage.do(() => stage.player.byHand(stage.cast.kind === 'set' ? edgeOf(stage.place, pin) : pin));
  const turn = (act) => () => stage.cast.kind !== 'masters' && (act(), stage.showHand());
  return [
    ['run', null, () => stage.run()],
    ['step-byte', 'b', () => stage.step((player) => player.nextByte())],
    ['step-event', 'e', () => stage.step((player) => player.nextEvent())],
    ['start-over', '0', () => stage.startOver()],
    ['link', 'k', () => shareLink(stage)],
    ['tick', 't', byHand(event.TICK)],
    ['edge-1', '1', counted(edge.CNT1)],
    ['edge-2', '2', counted(edge.CNT2)],
    ['lost', 'l', byHand(event.POWER_LOST_WITH_BACKUP)],
    ['gone', 'g', byHand(event.POWER_LOST_WITHOUT_BACKUP)],
    ['power', 'p', byHand(event.POWER_RETURNED)],
    ['sda', 'd', turn(() => stage.hand.turnData())],
    ['scl', 'c', turn(() => stage.hand.turnClock())],
    ['panel', null, () => stage.turnPanel()],
    ['save-lines', null, () => save('lines.txt', stage.text)],
    ['save-image', null, () => save('image.bin', joined(stage.player.device, 'image'))],
    ['save-memory', null, () => save('memory.bin', joined(stage.player.device, 'memory'))],
    ['mend', null, () => stage.mend()],
    ['fresh', null, () => stage.playFresh()],
  ];
}

/** Puts a link that holds script and cast into the address line and, where that is allowed, on the clipboard. */
function shareLink(stage) {
  history.replaceState(null, '', linkOf(at('script').value, wordsOfCast(stage.cast)));
  stage.say('The address line now holds the script.');
  navigator.clipboard?.writeText(location.href).then(
    () => stage.say('A link that holds the script is on the clipboard and in the address line.'), () => {});
}

function connectButtons(stage) {
  const actions = actionsOf(stage);
  for (const [id, , act] of actions) {
    at(id).addEventListener('click', act);
  }
  const byKey = new Map(actions.map(([, key, act]) => [key, act]));
  document.addEventListener('keydown', (pressed) => {
    const isWriting = pressed.target.matches('textarea, select, input');
    if (pressed.target.matches('textarea') && pressed.key === 'Escape') {
      at('run').focus();
    } else if (pressed.key === 'Enter' && (pressed.ctrlKey || pressed.metaKey)) {
      stage.run();
    } else if (!isWriting && !pressed.ctrlKey && !pressed.metaKey && !pressed.altKey) {
      byKey.get(pressed.key)?.();
    }
  });
}

/** The cast: a part, a set of devices by their select bits, or two masters. */
function connectCast(stage) {
  at('cast').addEventListener('change', () => {
    const { value } = at('cast');
    stage.play(value === 'set' ? { kind: 'set', members: FIRST_SET } : castOfWords(value));
  });
  at('set').addEventListener('change', () => {
    const chosen = [0, 1, 2, 3].map((select) => ({ part: at(`set-${select}`).value, select }));
    stage.play({ kind: 'set', members: chosen.filter(({ part }) => part !== '') });
  });
}

function connectScript(stage) {
  const use = (title, text, cast) => {
    stage.title = title;
    at('script').value = text;
    if (wordsOfCast(cast) === wordsOfCast(stage.cast)) {
      stage.edit();
    } else {
      stage.play(cast);
    }
  };
  at('examples').append(new Option('choose one', ''), ...Object.keys(EXAMPLES).map((name) => new Option(name, name)));
  at('examples').addEventListener('change', () => {
    const name = at('examples').value;
    if (name !== '') {
      use(name, EXAMPLES[name], castOfScript(name, EXAMPLES[name]));
      stage.startOver();
    }
  });
  at('script').addEventListener('input', () => {
    stage.title = 'script';
    at('examples').value = '';
    stage.edit();
  });
  at('script').addEventListener('scroll', () => stage.alignBackdrop());
  const useLink = () => {
    const { script, cast } = linked(location.hash);
    if (script !== null) {
      use('script', script, castOfWords(cast ?? '') ?? ONE_FM3130);
    }
    return script !== null;
  };
  window.addEventListener('hashchange', useLink);
  if (!useLink()) {
    use('script', FIRST_SCRIPT, ONE_FM3130);
  }
}

function connectFiles(stage) {
  onLoad(at('load-image'), (name, bytes) => stage.take(name, bytes, joined(stage.player.device, 'memory')));
  onLoad(at('load-memory'), (name, bytes) => stage.take(name, joined(stage.player.device, 'image'), bytes));
}

/** On a narrow window the words are there to be opened. */
function foldWords() {
  at('words-details').open = !window.matchMedia('(max-width: 900px)').matches;
}

const bytes = Uint8Array.from(atob(MODULE), (sign) => sign.charCodeAt(0));
const standIn = await load(bytes);
foldWords();
const stage = new Stage(standIn);
connectButtons(stage);
connectCast(stage);
connectScript(stage);
connectFiles(stage);
connectJudge(standIn, () => stage.player);
document.body.dataset.ready = 'yes';
