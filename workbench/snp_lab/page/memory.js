// The RMP entries of the run: what each frame's entry was behind each event, and who held the lock of its page.
function memoryOf(lane) {
  const FIELDS = ['state', 'assigned', 'asid', 'page', 'validated', 'immutable', 'permissions', 'large', 'vmsa', 'kind'];
  const FREE = {state: 'Hypervisor', assigned: 0, asid: 0, page: 0, validated: 0, immutable: 0, permissions: '0 0 0 0', large: 0, vmsa: 0, kind: 'Plain'};
  const entries = lane.entries.map((row) => Object.fromEntries(FIELDS.map((name, k) => [name, row[k]])));
  const known = new Map();

  // The entry of a frame at this place of a range whose first frame has an entry; nothing where the report doesn't tell it.
  function placed(number, place) {
    const entry = entries[number];
    return entry && place && entry.asid ? {...entry, page: entry.page + place} : entry;
  }

  // All steps of a frame in their order: the event, the entry behind it, whether it changed, and the actor that holds the lock then.
  function steps(frame) {
    if (known.has(frame)) { return known.get(frame); }
    const points = [{event: -1, entry: frame < lane.frames ? FREE : undefined}];
    lane.changes.forEach(([event, start, count, number]) => {
      if (start <= frame && frame < start + count) { points.push({event: event, entry: placed(number, frame - start), isChange: true}); }
    });
    lane.locks.forEach(([start, count, actor, taken, released]) => {
      if (start <= frame && frame < start + count) {
        points.push({event: taken, holder: actor, until: released});
        if (released !== null) { points.push({event: released, holder: 0}); }
      }
    });
    points.forEach((point, k) => { point.place = k; });
    points.sort((one, other) => one.event - other.event || one.place - other.place);
    const made = [];
    points.forEach((point) => {
      let last = made[made.length - 1];
      if (!last || last.event !== point.event) {
        last = {event: point.event, entry: last && last.entry, holder: last ? last.holder : 0, isChange: false};
        made.push(last);
      }
      if ('entry' in point) { last.entry = point.entry; }
      if ('holder' in point) { last.holder = point.holder; }
      if (point.isChange) { last.isChange = true; }
    });
    known.set(frame, made);
    return made;
  }

  // The frame whose entry changes most often; where none does, the first one that is anybody's.
  function busiest() {
    const many = new Map();
    lane.changes.forEach(([, start]) => { many.set(start, (many.get(start) || 0) + 1); });
    return [...many].reduce((best, one) => !best || one[1] > best[1] ? one : best, undefined)?.[0];
  }

  // Which step of a frame stands behind an event: the last one that isn't later.
  function placeAt(list, event) {
    let low = 0, high = list.length;
    while (low < high) {
      const middle = (low + high) >> 1;
      if (list[middle].event > event) { high = middle; } else { low = middle + 1; }
    }
    return low - 1;
  }

  function stepAt(frame, event) {
    const list = steps(frame);
    return list[placeAt(list, event)];
  }

  function numbered(page) { return page < 10 ? String(page) : '0x' + page.toString(16); }

  // The fields of an entry as they are told, with the lock's holder.
  function told(step) {
    const entry = step.entry, yes = (bit) => bit ? 'yes' : 'no';
    const holder = step.holder ? 'actor ' + step.holder : '\u2013';
    if (!entry) { return {state: 'not told', assigned: '?', asid: '?', page: '?', validated: '?', immutable: '?', permissions: '?', size: '?', vmsa: '?', kind: '?', lock: holder}; }
    const owned = entry.assigned && entry.asid;
    return {state: entry.state, assigned: yes(entry.assigned), asid: entry.assigned ? String(entry.asid) : '\u2013',
      page: owned ? numbered(entry.page) : '\u2013', validated: yes(entry.validated), immutable: yes(entry.immutable),
      permissions: owned ? entry.permissions : '\u2013', size: entry.large ? '2 MB' : '4 KB', vmsa: yes(entry.vmsa), kind: entry.kind, lock: holder};
  }

  // An entry in a few words: its state, and whose page it is.
  function brief(entry) {
    if (!entry) { return 'not told'; }
    return entry.state + (entry.assigned && entry.asid ? ' ' + entry.asid + ':' + numbered(entry.page) + (entry.large ? ' 2m' : '') : '');
  }

  // What a change of an entry is in a few words: what the entry is now, or what alone is another.
  function turned(before, after) {
    const said = brief(after);
    if (!before || !after || said !== brief(before)) { return said; }
    const others = [];
    if (before.permissions !== after.permissions) { others.push('permissions ' + after.permissions); }
    if (before.vmsa !== after.vmsa) { others.push(after.vmsa ? 'VMSA' : 'no VMSA'); }
    return others.join(', ') || said;
  }

  // Its name as a class: `guest-valid`.
  function classOf(entry) { return entry ? 's-' + entry.state.toLowerCase() : 's-unknown'; }

  return {frames: lane.frames, asids: lane.asids, busiest, steps, stepAt, placeAt, told, brief, turned, classOf};
}
