'use strict';

const at = (id) => document.getElementById(id);

function made(kind, text, name) {
  const element = document.createElement(kind);
  if (text !== undefined) element.textContent = text;
  if (name) element.className = name;
  return element;
}

// What was typed, and which directories are folded; a token that stands after the # of the address.
const folded = new Set();
const token = new URLSearchParams(location.hash.slice(1)).get('token');
let last = null;

const wanted = (...texts) => {
  const word = at('filter').value.trim().toLowerCase();
  return !word || texts.some((text) => String(text).toLowerCase().includes(word));
};

function table(id, heads, rows, total = 0) {
  at('count-' + id).textContent = rows.length < total ? rows.length + ' of ' + total : rows.length ? String(rows.length) : '';
  const lines = [made('tr')];
  lines[0].append(...heads.map((head) => made('th', head)));
  for (const row of rows) {
    const line = made('tr');
    line.append(...row.map((cell) => (cell instanceof Node ? cell : made('td', cell))));
    lines.push(line);
  }
  at(id).replaceChildren(...(rows.length ? lines : [made('caption', 'none', 'none')]));
}

const seconds = (milliseconds) => (milliseconds / 1000).toFixed(1) + ' s';

function client(number, names) {
  return names.has(number) ? number + ' (' + names.get(number) + ')' : String(number);
}

function lease(left) {
  const cell = made('td');
  if (left === null) {
    cell.textContent = 'not known';
    return cell;
  }
  const bar = made('span', undefined, left > 0 ? 'bar' : 'bar late');
  bar.style.width = Math.max(0.3, Math.min(6, left / 2000)) + 'em';
  cell.append(bar, left > 0 ? seconds(left) : 'ended');
  return cell;
}

function fold(name) {
  const mark = made('button', folded.has(name) ? '▸' : '▾', 'fold');
  mark.title = folded.has(name) ? 'show what is in it' : 'hide what is in it';
  mark.onclick = () => {
    if (!folded.delete(name)) folded.add(name);
    if (last) show(last);
  };
  return mark;
}

// Whether a directory above it is folded.
function isHidden(name) {
  for (let end = name.lastIndexOf('/'); end > 0; end = name.lastIndexOf('/', end - 1)) {
    if (folded.has(name.slice(0, end))) return true;
  }
  return false;
}

function tree(nodes, total) {
  const isFiltered = at('filter').value.trim() !== '';
  const shown = nodes.filter((node) => (isFiltered ? wanted(node.name) : !isHidden(node.name)));
  const lines = shown.map((node) => {
    const parts = node.name.split('/');
    const line = made('div');
    line.style.paddingLeft = (isFiltered ? 0 : (parts.length - 3) * 1.2) + 'em';
    const name = parts.length > 3 && !isFiltered ? parts[parts.length - 1] : node.name;
    line.append(node.is_file || isFiltered ? made('span', undefined, 'fold') : fold(node.name));
    line.append(made('span', name + (node.is_file ? '' : '/')));
    const more = (node.is_file ? node.length + ' bytes, generation ' + node.generation : '') + (node.is_ephemeral ? ', ephemeral' : '');
    line.append(made('span', more, 'more'));
    return line;
  });
  if (total > nodes.length) lines.push(made('div', 'and ' + (total - nodes.length) + ' more', 'none'));
  at('tree').replaceChildren(...lines);
}

function recovery(status) {
  const found = status.recovery;
  at('recovery').hidden = !found;
  if (!found) return;
  const named = found.waits_for.map((session) => session.client + ' (' + session.principal + ')');
  if (found.count > named.length) named.push(found.count - named.length + ' more');
  at('recovery').textContent = 'recovering: for ' + seconds(found.left) + ' at most, until it has heard of ' + (named.join(', ') || 'nobody else');
}

function show(all) {
  last = all;
  const names = new Map(all.sessions.map((session) => [session.client, session.principal]));
  const who = (numbers) => numbers.map((number) => client(number, names)).join(', ');
  const status = all.status;
  at('ready').textContent = status.is_ready ? 'ready' : 'not ready';
  at('ready').className = status.is_ready ? 'yes' : '';
  at('facts').textContent = 'epoch ' + status.epoch + ' · ' + status.nodes + ' nodes · ' + status.bytes + ' bytes · ' +
    status.sessions + ' sessions · ' + status.rights + ' rights · ' + status.connections + ' connections · ' + status.listening.join(' ');
  at('warnings').replaceChildren(...status.warnings.map((warning) => made('li', warning)));
  recovery(status);
  tree(all.nodes, status.nodes);
  table('waits', ['client', 'wants', 'of', 'since', 'waits for'], all.waits.filter((wait) => wanted(wait.name, wait.client, wait.principal, who(wait.waits_for))).map((wait) =>
    [client(wait.client, names), wait.act, wait.name, seconds(wait.waited), (who(wait.waits_for) || 'its turn') + (wait.count > wait.waits_for.length ? ' and ' + (wait.count - wait.waits_for.length) + ' more' : '')]));
  table('locks', ['node', 'held', 'by', 'waiting', 'generation'], all.locks.filter((lock) => wanted(lock.name, who(lock.holders), who(lock.waiters))).map((lock) =>
    [lock.name, lock.is_shared ? 'shared' : 'exclusive', who(lock.holders) || 'nobody: lock-delay', who(lock.waiters), String(lock.generation)]), status.locks);
  table('sessions', ['client', 'principal', 'connection', 'lease'], all.sessions.filter((session) => wanted(session.client, session.principal)).map((session) =>
    [String(session.client), session.principal, session.is_connected ? 'yes' : 'no', lease(session.lease_left)]), status.sessions);
}

// The server looks for what was typed, among more than the page shows. (Names, principals and numbers have no other characters.)
function asked() {
  const word = at('filter').value.trim().toLowerCase();
  return /^[a-z0-9._\/-]+$/.test(word) ? '/all?find=' + word : '/all';
}

async function follow() {
  for (;;) {
    try {
      const answer = await fetch(asked(), token ? { headers: { Authorization: 'Bearer ' + token } } : {});
      if (!answer.ok) throw new Error(answer.statusText);
      show(await answer.json());
    } catch {
      at('ready').textContent = 'not reached';
      at('ready').className = '';
    }
    await new Promise((done) => setTimeout(done, 500));
  }
}

at('filter').oninput = () => last && show(last);
follow();
