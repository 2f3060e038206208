(function () {
  const data = JSON.parse(document.getElementById('data').textContent);
  const run = runOf(data), memory = memoryOf(data.lane);
  const {events, rows} = run, lines = data.events;
  const ROW = 22, SPARE = 12, NEAR = 2, AGAIN = 12, MARK = 3, LEAST = 204, MOST = 420, RAIL = 17, MOST_RAILS = 84, LANE = 170, THIN = 14, SLIM_HEAD = 84, ROOMY = 520;
  const SIGNS = ['', '! ', '\u2715 '], SAID = ['', ', refused or hidden', ', fault'];
  const byId = (id) => document.getElementById(id);
  const time = byId('time'), canvas = byId('canvas'), heads = byId('heads'), items = byId('items'), search = byId('search');
  const narrow = matchMedia('(max-width: 900px)');

  // What is chosen: an event, and whether it is so by the title of its attempt. `frame` is that of the lane.
  let chosen = -1, isTitle = false, frame, matches = [], matched = new Set(), drawn = {first: 0, last: -1};
  // Widths: the numbers, a column, its cells' beginning and end, and the lane. `isSlim` where columns are rails, and `isDense` where these are many.
  let numbers = 56, width = 200, lane = 150, whole = 0, isSlim = false, isDense = false;

  function element(kind, className, text) {
    const made = document.createElement(kind);
    if (className) { made.className = className; }
    if (text !== undefined) { made.textContent = text; }
    return made;
  }

  function left(column) { return numbers + column * width; }

  // The first place of a list, in order, from which on a test holds.
  function lowest(count, test) {
    let low = 0, high = count;
    while (low < high) {
      const middle = (low + high) >> 1;
      if (test(middle)) { high = middle; } else { low = middle + 1; }
    }
    return low;
  }

  // Rows

  function setBox(made, x, wide, top, bottom, inset) {
    made.style.left = x + 'px';
    made.style.width = wide + 'px';
    made.style.top = (top * ROW + inset) + 'px';
    made.style.height = ((bottom - top + 1) * ROW - 2 * inset) + 'px';
    return made;
  }

  // Whether the lock of an attempt has a bar: where it has more than one row.
  function hasBar(attempt) { return attempt.lock !== undefined && run.from[attempt.start] < run.rowOf(attempt.end, false); }

  // The block of an attempt, which reaches from its first event to its last; and the bar of its lock.
  function drawBlock(parts, attempt) {
    const top = run.from[attempt.start], bottom = run.rowOf(attempt.end, false);
    const x = left(attempt.column) + (isSlim ? 2 : 3), wide = width - (isSlim ? 4 : 6);
    if (top < bottom) {
      const block = element('div', 'block' + (attempt.mark === 2 ? ' bad' : ''), attempt.isOpen || isSlim ? '' : run.itemOf(attempt) + ' ...');
      block.setAttribute('aria-hidden', 'true');
      parts.append(setBox(block, x, wide, top, bottom, 1));
    }
    if (hasBar(attempt) && !isSlim) {
      const bar = element('div', 'lockbar');
      bar.title = 'lock of item ' + attempt.item + ', from event ' + attempt.lock + ' to ' + attempt.end;
      bar.setAttribute('aria-hidden', 'true');
      parts.append(setBox(bar, left(attempt.column) + width - 12, 7, attempt.isOpen ? run.rowOf(attempt.lock, false) : run.from[attempt.lock], bottom, 2));
    }
  }

  function span(className, text) { return element('span', className, text); }

  // The cell of a title or of an event.
  function cellOf(there) {
    const attempt = there.attempt, k = there.event, event = events[k], actor = data.actors[attempt.column];
    const isWhole = there.isTitle || attempt.events.length === 1, mark = isWhole ? attempt.mark : event.mark;
    const kind = there.isTitle && attempt.isOpen ? 'title' : event.kind;
    const cell = element('div', 'event k-' + kind + (isWhole ? ' whole' : ' part'));
    const tried = attempt.tries ? ', attempt ' + attempt.tries : '';
    if (there.isTitle) {
      cell.dataset.attempt = attempt.number;
      cell.id = 'attempt-' + attempt.number;
      cell.append(span('sign', attempt.isOpen ? '\u25be' : '\u25b8'));
    } else {
      cell.id = 'event-' + k;
      if (isWhole) { cell.append(span('sign', '\u2002')); }
    }
    cell.dataset.event = k;
    if (isDense && isWhole) { cell.append(span('actor', actor.number)); }
    if (mark) {
      cell.classList.add(mark === 2 ? 'fault' : 'refusal');
      cell.append(span('sign', SIGNS[mark].trim()));
    }
    if (isWhole) {
      cell.append(span('name', run.itemOf(attempt)), span('came', '\u2192 ' + run.statusOf(attempt)));
      if (attempt.tries) { cell.append(span('actor', '(' + (attempt.tries + 1) + ')')); }
    } else {
      cell.append(span('name', event.deed));
    }
    const said = isWhole ? run.titleOf(attempt) : event.deed;
    cell.setAttribute('role', 'gridcell');
    cell.setAttribute('aria-colindex', attempt.column + 2);
    cell.setAttribute('aria-label', 'event ' + k + ', actor ' + actor.number + ', item ' + attempt.item + tried + ': ' + said + SAID[mark]);
    cell.title = there.isTitle ? 'events ' + attempt.start + ' to ' + attempt.end + ', actor ' + actor.number + ', item ' + attempt.item + tried + ': ' + said
      : k + ' ' + lines[k];
    const isMatch = there.isTitle ? !attempt.isOpen && attempt.events.some((one) => matched.has(one)) : matched.has(k);
    if (isMatch) { cell.classList.add('match'); }
    const isChosen = k === chosen && (there.isTitle ? isTitle : !isTitle || isWhole);
    cell.setAttribute('aria-selected', isChosen);
    if (isChosen) { cell.classList.add('chosen'); }
    const x = isSlim ? left(data.actors.length) + 3 : left(attempt.column) + 6;
    const wide = isSlim ? whole - lane - x - 3 : width - 12 - (hasBar(attempt) ? 9 : 0);
    cell.style.left = x + 'px';
    cell.style.width = (wide - (isWhole ? 0 : 14)) + 'px';
    return [cell, isMatch, isChosen];
  }

  // What the lane shows at a row: the entry behind the row's last event, and a lock that was held at one of its events.
  function laneCell(there, before, r) {
    const cell = element('div', 'lane');
    cell.setAttribute('role', 'gridcell');
    cell.setAttribute('aria-colindex', data.actors.length + 2);
    if (frame === undefined) { return cell; }
    const list = memory.steps(frame), place = memory.placeAt(list, there.until), step = list[place];
    let holder = memory.stepAt(frame, before).holder, begins = false, turn = 0;
    for (let k = place; k > 0 && list[k].event > before; k--) {
      if (list[k].isChange) { turn = turn || k; }
      if (list[k].holder) { holder = list[k].holder; begins = true; }
    }
    cell.classList.add(memory.classOf(step.entry));
    const is = memory.told(step);
    cell.title = 'frame ' + frame + ' behind event ' + there.until + ': ' + is.state + (is.asid === '\u2013' ? '' : ', ASID ' + is.asid)
      + (is.page === '\u2013' ? '' : ', page ' + is.page + ', ' + is.size + ', permissions ' + is.permissions) + (holder ? '; locked by actor ' + holder : '');
    if (lane === THIN) {
      if (turn) { cell.classList.add('turn'); }
      return cell;
    }
    // said again at some rows, so that it's in view wherever the reader is
    cell.append(turn ? span('', memory.turned(list[turn - 1].entry, step.entry)) : span('again', r % AGAIN === 0 ? memory.brief(step.entry) : ''));
    if (turn) { cell.classList.add('turn'); }
    if (holder) {
      const held = span('held', begins ? holder : '\u2002');
      cell.append(held);
    }
    return cell;
  }

  function rowAt(r) {
    const there = run.at(r), before = r ? run.at(r - 1).until : -1;
    const [cell, isMatch, isChosen] = cellOf(there);
    const made = element('div', 'row' + (isMatch ? ' matchrow' : '') + (isChosen ? ' chosenrow' : ''));
    made.setAttribute('role', 'row');
    made.setAttribute('aria-rowindex', r + 2);
    made.setAttribute('aria-level', there.isTitle || there.attempt.events.length === 1 ? 1 : 2);
    if (there.isTitle) { made.setAttribute('aria-expanded', there.attempt.isOpen); }
    made.style.top = r * ROW + 'px';
    made.style.width = whole + 'px';
    const number = element('div', 'number', there.isTitle && there.attempt.isOpen ? '' : there.event);
    number.setAttribute('role', 'rowheader');
    number.style.width = numbers + 'px';
    const strip = laneCell(there, before, r);
    strip.style.width = lane + 'px';
    made.append(number, cell, strip);
    if (isSlim) {
      const dot = element('div', 'dot', isDense ? '' : data.actors[there.attempt.column].number);
      dot.style.width = (width - 2) + 'px';
      dot.setAttribute('aria-hidden', 'true');
      dot.style.left = (left(there.attempt.column) + 1) + 'px';
      made.append(dot);
    }
    return made;
  }

  // Draws what is in view and a little more. Rows that were drawn stay where all is as it was but for the place in the run.
  function draw(isSame) {
    const last = Math.min(rows.length - 1, Math.ceil((time.scrollTop + time.clientHeight) / ROW) + SPARE);
    const first = Math.max(0, Math.min(last + 1, Math.floor(time.scrollTop / ROW) - SPARE));
    const layer = byId('rows'), spans = document.createDocumentFragment();
    run.own.forEach((list) => {
      for (let k = lowest(list.length, (one) => run.rowOf(list[one].end, false) >= first); k < list.length && run.from[list[k].start] <= last; k++) {
        drawBlock(spans, list[k]);
      }
    });
    byId('spans').replaceChildren(spans);
    if (!isSame || first > drawn.last || last < drawn.first) {
      layer.replaceChildren();
      drawn = {first: first, last: first - 1};
    }
    for (; drawn.first < first; drawn.first++) { layer.firstChild.remove(); }
    for (; drawn.last > last; drawn.last--) { layer.lastChild.remove(); }
    while (drawn.first > first) { layer.prepend(rowAt(--drawn.first)); }
    while (drawn.last < last) { layer.append(rowAt(++drawn.last)); }
    const active = layer.querySelector('.chosen');
    if (active) { time.setAttribute('aria-activedescendant', active.id); } else { time.removeAttribute('aria-activedescendant'); }
  }

  // Draws again where the reader has come near the end of what is drawn.
  function scrolled() {
    const first = Math.floor(time.scrollTop / ROW), last = Math.ceil((time.scrollTop + time.clientHeight) / ROW);
    if (first - NEAR < drawn.first && drawn.first > 0 || last + NEAR > drawn.last && drawn.last < rows.length - 1) { draw(true); }
    overview();
  }

  function head(text, title, size) {
    const made = element('div');
    made.setAttribute('role', 'columnheader');
    made.append(element('b', '', text), element('span', '', title));
    made.title = text + ': ' + title;
    made.style.width = size + 'px';
    return made;
  }

  function laneHead() {
    const isKnown = frame !== undefined;
    const made = head(isKnown ? 'frame ' + frame : '', isKnown && lane !== THIN ? 'state, ASID:page' : '', Math.max(lane, SLIM_HEAD));
    made.className = 'lanehead';
    made.title = isKnown ? 'the RMP entry of frame ' + frame + ' over time' : '';
    return made;
  }

  // In a narrow window where columns wouldn't fit they are rails beside one list.
  function layout() {
    // the height first: its scrollbar takes some of the width
    canvas.style.height = rows.length * ROW + 'px';
    time.setAttribute('aria-rowcount', rows.length + 1);
    const many = Math.max(1, data.actors.length), room = time.clientWidth, digits = 14 + 7 * String(events.length).length;
    isSlim = narrow.matches && Math.max(56, digits) + many * LEAST + LANE > room;
    isDense = isSlim && many * RAIL > MOST_RAILS;
    numbers = Math.max(isSlim ? 32 : 56, digits);
    if (isSlim) {
      lane = room < ROOMY ? THIN : LANE;
      width = isDense ? Math.max(6, Math.floor(MOST_RAILS / many)) : RAIL;
      whole = room;
      heads.replaceChildren(head('', '', numbers), ...data.actors.map((actor) => head(isDense ? '' : actor.number, '', width)),
        head('', 'item \u2192 outcome', room - left(many) - Math.max(SLIM_HEAD, lane)), laneHead());
      data.actors.forEach((actor, k) => { heads.children[k + 1].title = 'actor ' + actor.number + ': ' + actor.title; });
    } else {
      lane = Math.min(340, Math.max(LANE, room - numbers - many * MOST));
      width = Math.min(520, Math.max(LEAST, Math.floor((room - numbers - lane) / many)));
      whole = left(many) + lane;
      heads.replaceChildren(head('event', '', numbers), ...data.actors.map((actor) => head('actor ' + actor.number, actor.title, width)), laneHead());
    }
    time.classList.toggle('slim', isSlim);
    time.classList.toggle('thin', lane === THIN);
    heads.style.width = whole + 'px';
    canvas.style.width = whole + 'px';
    draw();
    overview();
  }

  function rowOfChosen() { return chosen < 0 ? -1 : run.rowOf(chosen, isTitle); }

  // Brings a row into view, or to the place where it was to be.
  function reveal(r, at) {
    const top = r * ROW, room = time.clientHeight - heads.offsetHeight;
    if (at !== undefined) { time.scrollTop = Math.max(0, top - at); }
    if (top < time.scrollTop || top + ROW > time.scrollTop + room) { time.scrollTop = Math.max(0, top - room / 2); }
    if (isSlim || r < 0) { return; }
    const x = left(run.at(r).attempt.column);
    if (x < time.scrollLeft + numbers || x + width > time.scrollLeft + time.clientWidth - lane) { time.scrollLeft = Math.max(0, x - numbers); }
  }

  // The chosen event in words

  function term(list, name, text) {
    const names = list.querySelectorAll('dt');
    if (!names.length || names[names.length - 1].textContent !== name) { list.append(element('dt', '', name)); }
    list.append(element('dd', '', text));
  }

  function show() {
    const event = events[chosen], attempt = event.attempt, actor = data.actors[attempt.column], box = byId('chosen');
    const range = attempt.events.length > 1 ? 'of ' + attempt.start + '\u2013' + attempt.end + ' ' : '';
    byId('chosen-title').replaceChildren('Event ' + chosen + ' ', span('range', range), element('code', '', run.itemOf(attempt) + ' \u2192 ' + run.statusOf(attempt)));
    byId('chosen-title').title = run.titleOf(attempt);
    const line = element('p');
    line.append(element('code', '', chosen + ' ' + lines[chosen]));
    const list = element('dl');
    term(list, 'by', 'actor ' + actor.number + ', ' + actor.title + '; item ' + attempt.item + (attempt.tries ? ', attempt ' + attempt.tries : ''));
    const text = data.texts[data.told[chosen]];
    (text ? text.split('\n') : []).forEach((part) => {
      const at = part.indexOf('\t');
      term(list, at < 0 ? 'what it does' : part.slice(0, at), at < 0 ? part : part.slice(at + 1));
    });
    box.replaceChildren(line, list);
    box.scrollTop = 0;
  }

  // Entries of the RMP

  const NAMES = ['state', 'lock', 'ASID', 'page', 'size', 'assigned', 'validated', 'kind', 'permissions', 'immutable', 'VMSA'];
  const MOST_FRAMES = 12, EARLIER = 3, LATER = 20, MORE = 100;
  let spread = 0;

  function isAssigned(one) { const step = memory.stepAt(one, chosen - 1); return Boolean(step.entry && step.entry.assigned); }

  function isOwned(one) { return isAssigned(one) && memory.stepAt(one, chosen - 1).entry.asid !== 0; }

  function entryRow(name, step, last, by) {
    const made = element('tr'), is = memory.told(step), was = last ? memory.told(last) : is;
    const first = element('th'), who = element('td', 'by', by);
    first.scope = 'row';
    first.append(name);
    who.title = by;
    made.append(first, who);
    NAMES.forEach((field) => {
      const key = field.toLowerCase(), cell = element('td', is[key] === was[key] ? '' : 'turned');
      if (key === 'state') { cell.append(element('span', 'chip ' + memory.classOf(step.entry), is.state)); } else { cell.textContent = is[key]; }
      if (key === 'asid' && memory.asids[is.asid]) { cell.title = memory.asids[is.asid]; }
      made.append(cell);
    });
    return made;
  }

  function more(text) { return button(text, 'shows more steps', () => { spread += MORE; showEntries(); }); }

  function spanning(...content) {
    const made = element('tr'), cell = element('th');
    cell.append(...content);
    cell.colSpan = NAMES.length + 2;
    made.append(cell);
    return made;
  }

  function button(text, title, deed) {
    const made = element('button', '', text);
    made.type = 'button';
    made.title = title;
    made.addEventListener('click', deed);
    return made;
  }

  function madeBy(step) {
    if (step.event < 0) { return 'at the opening'; }
    const event = events[step.event];
    return 'actor ' + data.actors[event.column].number + ': ' + run.itemOf(event.attempt);
  }

  // The entries of the frames that the chosen event's attempt is about, and then the chosen frame's over time.
  function showEntries() {
    const table = byId('entries'), title = element('thead'), now = element('tbody'), past = element('tbody'), names = element('tr');
    ['', 'by', ...NAMES].forEach((name) => { const cell = element('th', name === 'by' ? 'by' : '', name); cell.scope = 'col'; names.append(cell); });
    title.append(names);
    const attempt = chosen < 0 ? undefined : events[chosen].attempt;
    const frames = attempt ? run.framesOf(attempt, chosen, isAssigned) : [];
    if (frames.length) { now.append(spanning('As event ' + chosen + ' finds them' + (frames.length > 1 ? ', with the other frames of this attempt' : ''))); }
    frames.slice(0, MOST_FRAMES).forEach((one) => {
      const before = memory.stepAt(one, chosen - 1), behind = memory.stepAt(one, chosen);
      const made = entryRow(button('frame ' + one, 'shows frame ' + one + ' over time', () => pin(one)), before, undefined, '');
      now.append(made);
      if (behind.event === chosen && behind.isChange) {
        now.append(entryRow('\u2192 then', behind, before, madeBy(behind)));
      } else if (behind.event === chosen) {
        const lock = made.children[2 + NAMES.indexOf('lock')];
        lock.textContent += ' \u2192 ' + memory.told(behind).lock;
        lock.className = 'turned';
      }
    });
    if (frame !== undefined) {
      const list = memory.steps(frame), at = Math.max(0, memory.placeAt(list, chosen));
      const first = Math.max(0, at - EARLIER - spread), last = Math.min(list.length, at + 1 + LATER + spread);
      past.append(spanning('Frame ' + frame + ' over time' + (frame < memory.frames ? '' : ': no frame of memory') + ' ',
        first > 0 ? more(counted(first, 'earlier step', 'earlier steps')) : ''));
      for (let k = first; k < last; k++) {
        const step = list[k], name = step.event < 0 ? 'opening' : button('event ' + step.event, 'goes to event ' + step.event, () => choose(step.event, 'event'));
        const made = entryRow(name, step, k ? list[k - 1] : undefined, madeBy(step));
        if (k === at) { made.className = 'now'; made.setAttribute('aria-current', 'true'); }
        past.append(made);
      }
      if (last < list.length) { past.append(spanning(more(counted(list.length - last, 'later step', 'later steps')))); }
    }
    table.replaceChildren(title, now, past);
  }

  // The lane goes to the frame of the chosen event, where it follows it. A read of a table of the hypervisor leaves it at what its
  // attempt is about, or where it is.
  function follow() {
    if (byId('follow').checked && chosen >= 0) {
      frame = run.mainFrameOf(events[chosen].attempt, chosen, isAssigned, isOwned) ?? frame ?? memory.busiest();
      byId('frame').value = frame === undefined ? '' : frame;
    }
    heads.replaceChild(laneHead(), heads.lastChild);
  }

  function pin(one) {
    byId('follow').checked = false;
    byId('frame').value = one;
    frame = one;
    heads.replaceChild(laneHead(), heads.lastChild);
    draw();
    showEntries();
  }

  // Ways to an event

  // Chooses an event: itself (its attempt is unfolded), or the row that stands for it as it is.
  function choose(k, how) {
    if (k < 0 || k >= events.length) { return; }
    const attempt = events[k].attempt;
    if (how === 'event' && run.unfold(attempt, true)) { layout(); }
    chosen = how === 'event' || attempt.isOpen && how !== 'title' ? k : attempt.end;
    isTitle = how === 'title' || !attempt.isOpen && attempt.events.length > 1;
    shown();
  }

  function shown(at) {
    spread = 0;
    follow();
    reveal(rowOfChosen(), at);
    draw();
    show();
    showEntries();
    showItem();
    history.replaceState(null, '', '#e' + chosen);
  }

  function chooseRow(r) {
    if (!rows.length) { return; }
    const there = run.at(Math.max(0, Math.min(rows.length - 1, r)));
    choose(there.event, there.isTitle ? 'title' : 'row');
  }

  // Unfolds or folds the chosen attempt; its title stays where it is in the window.
  function toggle(attempt) {
    const at = rowOfChosen() * ROW - time.scrollTop;
    if (!run.unfold(attempt, !attempt.isOpen)) { return; }
    chosen = attempt.end;
    isTitle = true;
    layout();
    shown(at);
  }

  function toggleAll(isOpen) {
    const at = rowOfChosen() * ROW - time.scrollTop;
    run.unfoldAll(isOpen);
    if (chosen >= 0 && !isOpen) { chosen = events[chosen].attempt.end; isTitle = events[chosen].attempt.events.length > 1; }
    if (chosen >= 0 && isOpen) { isTitle = false; }
    layout();
    if (chosen >= 0) { shown(at); }
    time.focus({preventScroll: true});
  }

  // The next or the last row of the same actor.
  function stepOwn(by) {
    const column = chosen < 0 ? 0 : events[chosen].column;
    for (let r = rowOfChosen() + by; r >= 0 && r < rows.length; r += by) {
      if (run.at(r).attempt.column === column) { chooseRow(r); return; }
    }
  }

  // The next one of a list of events, or the last one, all around.
  function stepAmong(list, forward) {
    if (!list.length) { return; }
    const at = forward ? lowest(list.length, (one) => list[one] > chosen) : lowest(list.length, (one) => list[one] >= chosen) - 1;
    choose(list[(at + list.length) % list.length], 'event');
  }

  const notable = [];
  events.forEach((event, k) => { if (event.mark) { notable.push(k); } });
  const faults = notable.filter((k) => events[k].mark === 2);

  // The whole run in one strip: each fault and refusal at its place, and what is in view.
  function overview() {
    const strip = byId('overview'), high = strip.clientHeight, wide = strip.clientWidth, style = getComputedStyle(strip);
    strip.width = wide;
    strip.height = high;
    const pen = strip.getContext('2d'), count = Math.max(1, events.length), clamp = (r) => Math.max(0, Math.min(rows.length - 1, r));
    if (rows.length) {
      const first = clamp(Math.floor(time.scrollTop / ROW)), last = clamp(Math.ceil((time.scrollTop + time.clientHeight - heads.offsetHeight) / ROW) - 1);
      const top = first ? run.at(first - 1).until + 1 : 0, bottom = run.at(last).until + 1;
      pen.fillStyle = style.getPropertyValue('--view');
      pen.fillRect(0, top / count * high, wide, Math.max(3, (bottom - top) / count * high));
    }
    // faults on the left and refusals on the right; where many fall together the more are the darker
    const cells = Math.max(1, Math.floor(high / MARK)), half = Math.floor(wide / 2) - 2;
    for (const mark of [1, 2]) {
      const many = new Array(cells).fill(0);
      notable.forEach((k) => { if (events[k].mark === mark) { many[Math.floor(k / count * cells)] += 1; } });
      const most = Math.max(1, ...many);
      pen.fillStyle = style.getPropertyValue(mark === 2 ? '--fault' : '--refusal');
      many.forEach((number, at) => {
        if (number) {
          pen.globalAlpha = 0.3 + 0.7 * number / most;
          pen.fillRect(mark === 2 ? 1 : wide - half - 1, at * MARK, half, MARK);
        }
      });
    }
    pen.globalAlpha = 1;
  }

  function chooseAt(click) {
    const strip = byId('overview'), at = Math.floor((click.clientY - strip.getBoundingClientRect().top) / strip.clientHeight * events.length);
    const near = events.length / strip.clientHeight * 3, next = lowest(notable.length, (one) => notable[one] >= at);
    const marked = notable.slice(Math.max(0, next - 1), next + 1).filter((k) => Math.abs(k - at) <= near);
    marked.sort((one, other) => Math.abs(one - at) - Math.abs(other - at));
    choose(marked.length ? marked[0] : Math.max(0, Math.min(events.length - 1, at)), 'row');
    time.focus({preventScroll: true});
  }

  function counted(number, one, many) { return number + ' ' + (number === 1 ? one : many); }

  // An event is found by its line or what is told of it, and an attempt by its title, which stands at its last event.
  function find() {
    const wanted = search.value.trim().toLowerCase();
    matches = [];
    if (wanted) {
      const has = (text) => text.toLowerCase().includes(wanted);
      const inText = data.texts.map(has), inTitle = run.attempts.map((attempt) => has(run.titleOf(attempt)));
      events.forEach((event, k) => {
        if (inText[data.told[k]] || k === event.attempt.end && inTitle[event.attempt.number] || has(k + ' ' + lines[k])) { matches.push(k); }
      });
    }
    matched = new Set(matches);
    count();
    draw();
  }

  function count() {
    const at = matches.indexOf(chosen);
    byId('search-count').textContent = !search.value.trim() ? '' : matches.length === 0 ? 'nothing found'
      : (at < 0 ? '' : (at + 1) + ' of ') + matches.length + ' found';
  }

  function nextMatch(forward) {
    stepAmong(matches, forward);
    count();
  }

  function fillItems() {
    const last = data.actors.map(() => new Map());
    run.attempts.forEach((attempt) => { last[attempt.column].set(attempt.item, attempt); });
    data.actors.forEach((actor, column) => {
      const group = document.createElement('optgroup');
      group.label = 'actor ' + actor.number + ', ' + actor.title;
      actor.items.forEach((item, k) => {
        const known = last[column].get(k), option = document.createElement('option');
        option.value = column + '.' + k;
        option.textContent = SIGNS[known ? known.mark : 0] + k + ' ' + item + (known ? '' : ' (no event)');
        option.dataset.last = known ? known.end : -1;
        group.append(option);
      });
      items.append(group);
    });
  }

  function showItem() {
    if (byId('items-list').hidden || chosen < 0) { return; }
    const attempt = events[chosen].attempt, option = items.querySelector('option[value="' + attempt.column + '.' + attempt.item + '"]');
    if (option) { option.selected = true; }
  }

  function showItems(isShown) {
    if (isShown && !items.children.length) { fillItems(); }
    byId('items-list').hidden = !isShown;
    showItem();
    byId('items-show').setAttribute('aria-expanded', isShown);
    layout();
  }

  function openDrawer(isOpen) {
    document.querySelector('aside').classList.toggle('open', isOpen);
    byId('drawer').setAttribute('aria-expanded', isOpen);
    byId('drawer').textContent = isOpen ? 'Hide' : 'Explanation';
    layout();
    if (chosen >= 0) { reveal(rowOfChosen()); draw(); }
  }

  function isTyping() { return document.activeElement.matches('input:not([type=checkbox]), select'); }

  time.addEventListener('scroll', () => requestAnimationFrame(scrolled), {passive: true});
  canvas.addEventListener('click', (click) => {
    const cell = click.target.closest('.event'), line = click.target.closest('.row');
    if (!cell) {
      if (line) { chooseRow(Number(line.getAttribute('aria-rowindex')) - 2); }
      return;
    }
    const k = Number(cell.dataset.event), attempt = events[k].attempt;
    if (cell.dataset.attempt === undefined) {
      choose(k, 'row');
    } else {
      chosen = k;
      isTitle = true;
      toggle(attempt);
    }
    time.focus({preventScroll: true});
  });
  items.addEventListener('change', () => {
    const option = items.selectedOptions[0];
    if (option && Number(option.dataset.last) >= 0) { choose(Number(option.dataset.last), 'title'); }
  });
  byId('search-form').addEventListener('submit', (submit) => { submit.preventDefault(); nextMatch(true); });
  byId('search-back').addEventListener('click', () => nextMatch(false));
  byId('fault-next').addEventListener('click', () => stepAmong(notable, true));
  byId('unfold-all').addEventListener('click', () => toggleAll(true));
  byId('fold-all').addEventListener('click', () => toggleAll(false));
  byId('items-show').addEventListener('click', () => showItems(byId('items-list').hidden));
  search.addEventListener('input', find);
  byId('frame-form').addEventListener('submit', (submit) => submit.preventDefault());
  byId('frame').addEventListener('input', () => {
    if (/^\d+$/.test(byId('frame').value)) { pin(Number(byId('frame').value)); }
  });
  byId('follow').addEventListener('change', () => { follow(); draw(); showEntries(); });
  time.addEventListener('keydown', (key) => {
    const page = Math.max(1, Math.floor(time.clientHeight / ROW) - 3), r = rowOfChosen();
    const turn = () => { if (chosen >= 0) { toggle(events[chosen].attempt); } };
    const moves = {ArrowDown: () => chooseRow(r + 1), ArrowUp: () => chooseRow(r - 1), ArrowRight: () => stepOwn(1), ArrowLeft: () => stepOwn(-1),
      PageDown: () => chooseRow(r + page), PageUp: () => chooseRow(r - page), Home: () => chooseRow(0), End: () => chooseRow(rows.length - 1),
      Enter: turn, ' ': turn};
    if (moves[key.key] && !key.ctrlKey && !key.altKey && !key.metaKey) { key.preventDefault(); moves[key.key](); }
  });
  document.addEventListener('keydown', (key) => {
    const moves = {f: () => stepAmong(notable, true), F: () => stepAmong(notable, false), n: () => nextMatch(true), N: () => nextMatch(false),
      u: () => toggleAll(true), U: () => toggleAll(false), '/': () => { byId('tools').open = true; search.focus(); search.select(); }};
    if (moves[key.key] && !isTyping() && !key.ctrlKey && !key.altKey && !key.metaKey) { key.preventDefault(); moves[key.key](); }
  });
  function fold() {
    byId('tools').open = !narrow.matches;
    openDrawer(!narrow.matches);
  }
  narrow.addEventListener('change', fold);
  matchMedia('(prefers-color-scheme: dark)').addEventListener('change', overview);
  byId('overview').addEventListener('click', chooseAt);
  byId('drawer').addEventListener('click', () => openDrawer(byId('drawer').getAttribute('aria-expanded') !== 'true'));
  function followLink() {
    const asked = /^#e(\d+)$/.exec(location.hash);
    const there = asked !== null && Number(asked[1]) < events.length;
    if (there) { choose(Number(asked[1]), 'event'); }
    return there;
  }
  window.addEventListener('hashchange', followLink);
  window.addEventListener('resize', layout);

  time.setAttribute('aria-colcount', data.actors.length + 2);
  const part = (number, one, many, some) => element('b', number ? some : '', counted(number, one, many));
  byId('summary').append(counted(events.length, 'event', 'events') + ' of ' + counted(data.actors.length, 'actor', 'actors') + ', ',
    part(faults.length, 'fault', 'faults', 'some-faults'), ', ', part(notable.length - faults.length, 'refusal', 'refusals', 'some-refusals'),
    data.guests.map((guest) => '; ' + guest).join(''));
  byId('frame').max = memory.frames - 1;
  fold();
  if (!followLink() && events.length) { choose(notable.length ? (faults.length ? faults[0] : notable[0]) : 0, 'row'); }
  time.focus({preventScroll: true});
  document.body.dataset.ready = events.length;
  document.body.dataset.milliseconds = Math.round(performance.now());
})();
