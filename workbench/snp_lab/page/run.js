'use strict';
// The run as the page's data tells it: its events, its attempts, and which rows stand for them as some attempts are unfolded.
function runOf(data) {
  const KINDS = {begin: 'begin', npt: 'npt', gpt: 'gpt', data: 'data', host: 'host', lock: 'lock', lockg: 'lock', compute: 'commit',
    commit: 'commit', commitg: 'commit', skip: 'skip'};
  // how many words each deed has; what stands behind them is an outcome
  const DEEDS = {begin: 1, npt: 3, gpt: 4, data: 4, host: 2, lock: 2, lockg: 2, compute: 1, commit: 4, commitg: 2, skip: 1};
  // which word of a deed names its frame
  const FRAMES = {npt: 1, host: 1, gpt: 2, data: 2, lock: 1, commit: 1};

  const columns = new Map(data.actors.map((actor, k) => [actor.number, k]));
  const attempts = [], own = data.actors.map(() => []);
  const events = data.events.map((line, k) => {
    const first = line.indexOf(' '), second = line.indexOf(' ', first + 1);
    const column = columns.get(Number(line.slice(0, first)));
    const [item, tries] = line.slice(first + 1, second).split('.').map(Number);
    const deed = line.slice(second + 1), end = deed.indexOf(' ');
    let attempt = own[column][own[column].length - 1];
    if (!attempt || attempt.item !== item || attempt.tries !== tries) {
      attempt = {number: attempts.length, column: column, item: item, tries: tries, start: k, end: k, events: [], mark: 0, isOpen: false};
      attempts.push(attempt);
      own[column].push(attempt);
    }
    const kind = KINDS[end < 0 ? deed : deed.slice(0, end)], mark = data.marks[k];
    attempt.end = k;
    attempt.events.push(k);
    attempt.mark = Math.max(attempt.mark, mark);
    if (kind === 'lock' && !mark && attempt.lock === undefined) { attempt.lock = k; }
    return {column: column, attempt: attempt, deed: deed, kind: kind, mark: mark};
  });

  function words(k) { return events[k].deed.split(' '); }

  // The frame of an event; none where it names no frame.
  function frameOf(k) {
    const parts = words(k), place = FRAMES[parts[0]];
    return place === undefined ? undefined : Number(parts[place].split(':')[0]);
  }

  function itemOf(attempt) { return data.actors[attempt.column].items[attempt.item] || 'item ' + attempt.item; }

  // How an attempt ended; nothing where it hadn't as the run ended.
  function outcomeOf(attempt) {
    const parts = words(attempt.end);
    return parts.slice(DEEDS[parts[0]]).join(' ');
  }

  // The same without the tags of one that is refused for them.
  function statusOf(attempt) { return outcomeOf(attempt).replace(/ found .*/, '') || 'no outcome'; }

  function titleOf(attempt) { return itemOf(attempt) + ' \u2192 ' + (outcomeOf(attempt) || 'no outcome'); }

  // The frames that an attempt is about: those that its item names, of its locks and of its accesses. Tables of its walk are beside
  // the point, but for a nested one that is assigned, whose words read as zero.
  function subjectsOf(attempt, isAssigned) {
    const named = data.actors[attempt.column].frames[attempt.item] || [];
    const isSubject = (k) => frameOf(k) !== undefined && events[k].kind !== 'gpt' && (events[k].kind !== 'npt' || isAssigned(frameOf(k)));
    return named.concat(attempt.events.filter(isSubject).map(frameOf));
  }

  // The same, that of the event first.
  function framesOf(attempt, k, isAssigned) {
    const own = frameOf(k);
    return [...new Set((own === undefined ? [] : [own]).concat(subjectsOf(attempt, isAssigned)))];
  }

  // The one that an event is about: its own, or the one that its attempt comes to with its access or commit, or one that is a guest's;
  // none where its attempt is about none.
  function mainFrameOf(attempt, k, isAssigned, isOwned) {
    const own = frameOf(k), all = subjectsOf(attempt, isAssigned);
    if (events[k].kind === 'gpt' || all.includes(own)) { return own; }
    if (['data', 'host', 'commit'].includes(events[attempt.end].kind) && frameOf(attempt.end) !== undefined) { return frameOf(attempt.end); }
    return all.find(isOwned) ?? all[all.length - 1];
  }

  // The rows from top to bottom: the number of an event, which stands for its whole attempt where that is folded, or -1 - A for
  // the title of the unfolded attempt A. `from` has for each event the row at which it would stand.
  const rows = [], from = new Int32Array(events.length + 1);
  function arrange() {
    rows.length = 0;
    events.forEach((event, k) => {
      const attempt = event.attempt;
      from[k] = rows.length;
      if (attempt.isOpen && k === attempt.start) { rows.push(-1 - attempt.number); }
      if (attempt.isOpen || k === attempt.end) { rows.push(k); }
    });
    from[events.length] = rows.length;
  }

  function unfold(attempt, isOpen) {
    const changes = attempt.events.length > 1 && attempt.isOpen !== isOpen;
    if (changes) { attempt.isOpen = isOpen; arrange(); }
    return changes;
  }

  function unfoldAll(isOpen) {
    attempts.forEach((attempt) => { attempt.isOpen = isOpen && attempt.events.length > 1; });
    arrange();
  }

  // The row of an event, or that of the title of its attempt.
  function rowOf(k, isTitle) {
    const attempt = events[k].attempt;
    if (!attempt.isOpen) { return from[attempt.end]; }
    return isTitle ? from[attempt.start] : from[k] + (k === attempt.start ? 1 : 0);
  }

  // The attempt of a row, whether the row is a title, the event that it stands for, and the last event that has happened at it.
  function at(row) {
    const k = rows[row];
    if (k < 0) {
      const attempt = attempts[-1 - k];
      return {attempt: attempt, isTitle: true, event: attempt.end, until: attempt.start - 1};
    }
    const attempt = events[k].attempt;
    return {attempt: attempt, isTitle: !attempt.isOpen && attempt.events.length > 1, event: k, until: k};
  }

  arrange();
  return {events, attempts, own, rows, from, unfold, unfoldAll, rowOf, at, framesOf, mainFrameOf, itemOf, statusOf, titleOf};
}
