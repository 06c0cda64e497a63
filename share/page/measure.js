'use strict';
// Opened with `?measure` after its name the page types 200 keys into its search, and says how long each took until it was
// painted. Opened with `?answers` it writes the program's six answers for each place of T, as they follow from what it keeps,
// and then who uses each other place that it knows.

const KEYS = 200;

// When what was changed now has been painted: the frame that paints it has begun, and is over.
function painted() {
  return new Promise((resolve) => {
    requestAnimationFrame(() => {
      const channel = new MessageChannel();
      channel.port1.onmessage = () => resolve(performance.now());
      channel.port2.postMessage(0);
    });
  });
}

// Words to type: labels and texts of the store, each cut after six letters and taken back letter by letter.
function* textsToType(store) {
  for (let at = 0; ; at += 1) {
    const place = Math.floor(((at * 0.618034) % 1) * store.count);
    const word = Array.from(store.kinds[place] === 's' && at % 2 ? store.values[place] : store.label(place)).slice(0, 6);
    for (let size = 1; size <= word.length; size += 1) yield word.slice(0, size).join('');
    for (let size = word.length - 1; size >= 0; size -= 1) yield word.slice(0, size).join('');
  }
}

async function measure(store) {
  const input = document.getElementById('search');
  const texts = textsToType(store);
  const times = [];
  await painted();
  for (let key = 0; key < KEYS; key += 1) {
    const start = performance.now();
    input.value = texts.next().value;
    input.dispatchEvent(new Event('input'));
    times.push(await painted() - start);
  }
  input.value = '';
  input.dispatchEvent(new Event('input'));
  const sorted = [...times].sort((one, other) => one - other);
  const at = (part) => sorted[Math.ceil(part * sorted.length) - 1].toFixed(1);
  const line = `${KEYS} keys over ${store.count} places: half were painted within ${at(0.5)} ms, 99 of 100 within ${at(0.99)} ms, all within ${at(1)} ms`;
  document.body.prepend(element('p', { class: 'notice', id: 'measured' }, line));
}

function showAnswers(store) {
  const lines = [];
  for (let place = 0; place < store.roots[0].end; place += 1) lines.push(...store.answers(place));
  for (let place = store.roots[0].end; place < store.parents.length; place += 1) lines.push(store.usesLine(store.path(place)));
  document.body.replaceChildren(element('pre', { id: 'answers' }, lines.join('\n')));
}
