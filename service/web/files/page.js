// The page of the orchestrator's service. It follows the server-sent events of /events, and draws only the rows that are seen.
'use strict'
const by = id => document.getElementById(id)
const volumes = new Map() // by name
let plugins = [], entries = [], shown = [], isWhole = false, draws = false, leads = false
let offset = 0, heard = 0, node = '', active = '', open = '', picture = ''

// ---- words

function make(tag, kind, text) {
  const it = document.createElement(tag)
  if (kind) it.className = kind
  if (text !== undefined) it.textContent = text
  return it
}
const now = () => Date.now() + offset
function age(since) {
  const seconds = Math.max(0, Math.round((now() - since) / 1000))
  if (seconds < 60) return seconds + ' s'
  if (seconds < 3600) return Math.floor(seconds / 60) + ' min ' + (seconds < 600 ? seconds % 60 + ' s' : '')
  if (seconds < 86400) return Math.floor(seconds / 3600) + ' h ' + Math.floor(seconds % 3600 / 60) + ' min'
  return Math.floor(seconds / 86400) + ' d ' + Math.floor(seconds % 86400 / 3600) + ' h'
}
const clock = time => new Date(time).toLocaleTimeString([], { hour: '2-digit', minute: '2-digit', second: '2-digit', hour12: false })
const known = ['no', 'yes', 'maybe']
const isReached = name => (plugins.find(it => it.name === name) || { reached: true }).reached
const bytes = count => { let at = 0; while (count >= 1024 && at < 5) { count /= 1024; at++ } return `${+count.toFixed(1)} ${['B', 'KiB', 'MiB', 'GiB', 'TiB', 'PiB'][at]}` }

// asked is what is wanted of a volume.
function asked(volume) {
  if (!volume.goal) return ''
  return volume.node ? `${volume.goal} at ${volume.node} ${volume.target}` : volume.goal
}

// reason is what a volume waits for, in words.
function reason(volume) {
  const call = volume.call || 'a call', tries = volume.tries > 1 ? `, try ${volume.tries}` : ''
  if (volume.plugin) return (isReached(volume.plugin) ? `${volume.plugin} has to answer ${call}` : `${volume.plugin} has to be reached for ${call}`) + tries
  if (volume.again) return `${call} is tried again ` + (volume.again > now() + 500 ? `in ${age(2 * now() - volume.again)}` : 'now') + tries
  return 'it is under way'
}

function rest(volume) {
  if (volume.exists === 0) return 'deleted: the name is free with the next session'
  return (volume.at || []).length ? 'nothing' : 'nothing: not used'
}

// ---- what is heard

const handlers = {
  begin(it) {
    volumes.clear(); entries = []; isWhole = false; leads = it.leads; draws = it.draws
    by('set').textContent = it.set
    document.title = it.set + ' · Tufayon'
    by('leader').textContent = by('leader').title = it.leader || '–'
    by('session').textContent = '–' // of a service that leads it comes now
    by('event-list').replaceChildren()
  },
  volumes(list) { for (const it of list) volumes.set(it.name, it) },
  forgotten(list) { for (const name of list) volumes.delete(name) },
  session(it) { by('session').textContent = it },
  plugins(list) { plugins = list; soon() },
  entries(list) { entries = entries.concat(list).slice(-200); drawEvents(list) },
  whole() { isWhole = true },
}

let wants = false
function soon() { // all that came is drawn at once
  if (wants) return
  wants = true
  requestAnimationFrame(() => { wants = false; draw() })
}

const source = new EventSource('events')
source.onmessage = message => {
  const it = JSON.parse(message.data)
  offset = it.now - Date.now()
  heard = Date.now()
  for (const key in handlers) if (key in it) handlers[key](it[key])
  if (isWhole) {
    soon()
    if (open && (it.volumes || []).some(volume => volume.name === open)) { drawVolume(); askVolume() }
  }
}
setInterval(() => {
  const isOld = source.readyState !== 1 || Date.now() - heard > 15000
  document.body.classList.toggle('old', isOld)
  by('lost').hidden = !isOld
  if (isOld) by('lost').textContent = heard ? `No connection since ${clock(heard + offset)}: what stands here is old.` : 'No connection to the service.'
  soon()
}, 1000)

// ---- the head

function drawHead() {
  const waiting = [...volumes.values()].filter(it => it.goal)
  const oldest = Math.min(...waiting.map(it => it.since || Infinity))
  by('waiting').textContent = waiting.length
  by('oldest').textContent = oldest === Infinity ? '–' : age(oldest)
  by('total').textContent = [...volumes.values()].filter(it => it.exists).length
  const isOld = document.body.classList.contains('old')
  by('state').dataset.state = isOld ? 'none' : leads ? 'leads' : 'waits'
  by('state').textContent = isOld ? 'no connection' : leads ? 'leads' : 'waits to lead'
}

// ---- plugins

function drawPlugins() {
  const list = by('plugin-list'), gone = plugins.filter(it => !it.reached)
  by('unreached').textContent = gone.length ? `· ${gone.length} not reached` : ''
  by('unreached-tab').textContent = gone.length ? `▲ ${gone.length}` : ''
  while (list.children.length > plugins.length) list.lastChild.remove()
  while (list.children.length < plugins.length) {
    const button = make('button')
    button.type = 'button'
    button.append(make('span', 'name'), make('meter'), make('div', 'more'), make('div', 'trouble'))
    button.firstChild.append(make('span'), make('span', 'hidden'), make('small'))
    button.onclick = () => { node = node === button.dataset.node ? '' : button.dataset.node; by('scroller').scrollTop = 0; if (node) tab('volumes'); draw() }
    const item = make('li')
    item.append(button)
    list.append(item)
  }
  const used = new Map()
  for (const volume of volumes.values()) for (const at of volume.at || []) if (at.attached) used.set(at.node, (used.get(at.node) || 0) + 1)
  const sorted = plugins.slice().sort((a, b) => a.reached - b.reached) // stays in order else
  sorted.forEach((it, at) => {
    const button = list.children[at].firstChild, [name, meter, more, trouble] = button.children
    button.dataset.node = it.node || ''
    button.disabled = !it.node
    button.className = it.reached ? '' : 'gone'
    button.setAttribute('aria-pressed', String(!!it.node && it.node === node))
    name.children[0].textContent = it.node || it.name
    name.children[1].textContent = it.reached ? ' is reached ' : ' is not reached '
    name.children[2].textContent = it.node ? `${used.get(it.node) || 0}${it.slots ? ' / ' + it.slots : ''}` : ''
    name.children[2].title = 'volumes that are attached, or may be'
    meter.hidden = !it.slots
    if (it.slots) Object.assign(meter, { max: it.slots, high: it.slots * .8, low: 0, optimum: 0, value: used.get(it.node) || 0 })
    meter.setAttribute('aria-label', 'slots used')
    more.textContent = [it.under_way && `${it.under_way} under way`, it.queued && `${it.queued} queued`].filter(Boolean).join(' · ')
    trouble.textContent = it.trouble || (it.reached ? '' : 'not reached: ' + it.connection)
    button.title = it.address
  })
}

// ---- volumes

const compare = new Intl.Collator('en', { numeric: true }).compare
const isMaybe = it => it.exists === 2 || (it.at || []).some(at => at.attached === 2 || at.staged === 2 || (at.targets || []).some(t => t.published === 2))
const filters = {
  all: () => true, waiting: it => it.goal, maybe: isMaybe, used: it => (it.at || []).length > 0, deleted: it => it.exists === 0 && !it.goal,
}

function choose() {
  const find = by('find').value.trim().toLowerCase(), filter = filters[by('show').value]
  shown = []
  for (const it of volumes.values()) {
    if (!filter(it) || find && !it.name.toLowerCase().includes(find)) continue
    if (node && it.node !== node && !(it.at || []).some(at => at.node === node)) continue
    shown.push(it)
  }
  shown.sort((a, b) => !a.goal - !b.goal || (a.goal ? (a.since || 0) - (b.since || 0) : 0) || compare(a.name, b.name))
  by('count').textContent = shown.length === volumes.size ? `${shown.length} volumes` : `${shown.length} of ${volumes.size} volumes`
  by('node-filter').hidden = !node
  by('node-filter').textContent = node ? `at ${node} ✕` : ''
  by('node-filter').setAttribute('aria-label', node ? `Only those at ${node}: show all` : '')
}

function mark(kind, text, long) {
  const it = make('span', 'mark ' + known[kind], text + (kind === 2 ? '?' : ''))
  it.title = long
  return it
}

// place shows a volume at a node.
function place(at) {
  const it = make('span', 'place'), targets = at.targets || [], published = targets.length ? Math.max(...targets.map(t => t.published)) : 0
  it.append(make('b', '', at.node))
  if (at.attached) it.append(mark(at.attached, 'attached', `attached: ${known[at.attached]}`))
  if (at.staged) it.append(mark(at.staged, 'staged', `staged: ${known[at.staged]}`))
  if (published) it.append(mark(published, targets.length > 1 ? `published ×${targets.length}` : 'published', targets.map(t => `${t.path}: ${known[t.published]}`).join('\n')))
  if (!at.attached && !at.staged && !published) it.append(make('span', 'mark no', 'not yet'))
  if (at.readonly) it.append(make('span', 'mark no', 'ro'))
  return it
}

function waits(to, volume) {
  const lines = []
  if (volume.goal) {
    const what = make('div'), why = make('div')
    what.append(make('b', '', asked(volume)))
    if (volume.since) what.append(' · for ', make('span', 'age' + (now() - volume.since > 60000 ? ' long' : ''), age(volume.since)))
    if (volume.trouble) why.append(make('span', 'trouble', volume.trouble), ' · ')
    why.append(reason(volume))
    lines.push(what, why)
  } else {
    lines.push(make('div', 'rest', rest(volume)))
    if (volume.trouble) lines.push(make('div', 'trouble', volume.trouble))
  }
  for (const line of lines) line.title = line.textContent
  to.replaceChildren(...lines)
}

function fill(row, volume, at) {
  const [name, reasons, where] = row.children
  row.dataset.name = volume.name
  row.id = 'row-' + at
  row.setAttribute('aria-rowindex', at + 2)
  row.setAttribute('aria-selected', String(volume.name === active))
  row.classList.toggle('active', volume.name === active)
  name.replaceChildren(make('b', '', volume.name), ' ', make('small', '', volume.id ? '#' + volume.id : ''))
  name.title = volume.name
  waits(reasons, volume)
  where.replaceChildren()
  const places = (volume.at || []).slice(0, 3)
  for (const it of places) where.append(place(it))
  const more = (volume.at || []).length - places.length
  if (more > 0) where.append(make('span', 'mark no', `and ${more} nodes more`))
}

const drawn = new Map() // rows, by their places
function drawRows() {
  const rows = by('rows'), scroller = by('scroller')
  const height = parseFloat(getComputedStyle(document.documentElement).getPropertyValue('--row')) * parseFloat(getComputedStyle(document.documentElement).fontSize)
  rows.style.height = shown.length * height + 'px'
  by('grid').setAttribute('aria-rowcount', shown.length + 1)
  const first = Math.max(0, Math.floor(scroller.scrollTop / height) - 4), last = Math.min(shown.length, Math.ceil((scroller.scrollTop + scroller.clientHeight) / height) + 4)
  for (const [at, row] of drawn) if (at < first || at >= last) { row.remove(); drawn.delete(at) }
  for (let at = first; at < last; at++) {
    let row = drawn.get(at)
    if (!row) {
      row = make('div', 'row')
      row.setAttribute('role', 'row')
      for (const kind of ['name', 'waits', 'where']) row.append(make('span', kind))
      for (const cell of row.children) cell.setAttribute('role', 'gridcell')
      row.onclick = () => { active = row.dataset.name; show(active); drawRows() }
      drawn.set(at, row)
      rows.append(row)
    }
    row.style.transform = `translateY(${at * height}px)`
    fill(row, shown[at], at)
  }
  const at = shown.findIndex(it => it.name === active)
  if (drawn.has(at)) by('grid').setAttribute('aria-activedescendant', 'row-' + at)
  else by('grid').removeAttribute('aria-activedescendant')
  return height
}

function move(to) {
  if (!shown.length) return
  const at = Math.max(0, Math.min(shown.length - 1, to)), scroller = by('scroller'), height = drawRows()
  active = shown[at].name
  if (at * height < scroller.scrollTop) scroller.scrollTop = at * height
  else if ((at + 1) * height > scroller.scrollTop + scroller.clientHeight) scroller.scrollTop = (at + 1) * height - scroller.clientHeight
  drawRows()
}

by('scroller').addEventListener('scroll', drawRows, { passive: true })
by('scroller').addEventListener('focus', () => by('grid').focus({ preventScroll: true })) // who clicks has the keys too
by('grid').addEventListener('keydown', event => {
  const at = shown.findIndex(it => it.name === active), page = Math.max(1, drawn.size - 9)
  const to = { ArrowDown: at + 1, ArrowUp: at - 1, PageDown: at + page, PageUp: at - page, Home: 0, End: shown.length - 1 }[event.key]
  if (to !== undefined) { event.preventDefault(); move(to) } else if (event.key === 'Enter' && at >= 0) show(active)
})
addEventListener('resize', soon)
addEventListener('keydown', event => {
  if (event.key === '/' && !open && !/INPUT|SELECT/.test(document.activeElement.tagName)) { event.preventDefault(); tab('volumes'); by('find').focus() }
})
for (const id of ['find', 'show']) by(id).addEventListener('input', () => { by('scroller').scrollTop = 0; draw() })
by('filter').addEventListener('submit', event => { event.preventDefault(); if (shown.length) move(0); by('grid').focus() })
by('node-filter').onclick = () => { node = ''; draw() }

function draw() { choose(); drawRows(); drawHead(); drawPlugins(); if (open) drawWaits() }

// ---- events

function eventItem(it, isNamed) {
  const item = make('li', it.wrong ? 'wrong' : '')
  const time = make('time', '', clock(it.time))
  time.dateTime = new Date(it.time).toISOString()
  item.append(time)
  if (isNamed && it.name) {
    const button = make('button', '', it.name)
    button.type = 'button'
    button.onclick = () => show(it.name)
    item.append(button)
  }
  item.append(it.text)
  return item
}

function drawEvents(anew) {
  const list = by('event-list')
  list.prepend(...anew.slice(-200).reverse().map(it => eventItem(it, true)))
  while (list.children.length > 200) list.lastChild.remove()
}

// ---- one volume

function show(name) {
  open = name
  picture = ''
  by('picture').hidden = by('picture-fault').hidden = true
  by('volume-events').replaceChildren()
  drawVolume()
  askVolume()
  if (!by('volume').open) by('volume').showModal()
  if (location.hash !== '#' + encodeURIComponent(name)) history.replaceState(null, '', '#' + encodeURIComponent(name))
}
by('volume').addEventListener('close', () => { open = ''; history.replaceState(null, '', location.pathname); by('grid').focus() })

function drawWaits() {
  const volume = volumes.get(open), to = by('volume-waits')
  to.classList.toggle('wanted', !!volume && !!volume.goal)
  if (volume) waits(to, volume)
  else to.textContent = isWhole ? 'There is no volume of this name.' : ''
}

function fact(to, name, text) {
  const it = make('div')
  it.append(make('dt', '', name), make('dd', '', text))
  to.append(it)
}

function drawVolume() {
  const volume = volumes.get(open) || { at: [] }, facts = by('volume-facts'), body = by('volume-at').tBodies[0]
  by('volume-name').textContent = open
  drawWaits()
  facts.replaceChildren()
  fact(facts, 'Exists', known[volume.exists] || 'no')
  if (volume.id) fact(facts, 'Id', volume.id)
  if (volume.size) fact(facts, 'Asked for', bytes(volume.size))
  if (volume.goal) { fact(facts, 'Wanted', asked(volume)); if (volume.since) fact(facts, 'Since', clock(volume.since)); fact(facts, 'Try', volume.tries) }
  body.replaceChildren()
  for (const at of volume.at || []) {
    const row = body.insertRow()
    row.insertCell().textContent = at.node + (at.readonly ? ' (read only)' : '')
    row.insertCell().append(mark(at.attached, known[at.attached], ''))
    row.insertCell().append(mark(at.staged, known[at.staged], ''))
    const cell = row.insertCell()
    for (const target of at.targets || []) { const line = make('div'); line.append(target.path + ' ', mark(target.published, known[target.published], '')); cell.append(line) }
  }
  by('volume-at').hidden = !(volume.at || []).length
}

let asks = 0
async function askVolume() {
  const name = open, mine = ++asks
  let answer
  try {
    answer = await (await fetch('volume?name=' + encodeURIComponent(name))).json()
  } catch { return } // the next change asks again
  if (open !== name || mine !== asks) return
  by('volume-events').replaceChildren(...answer.entries.slice().reverse().map(it => eventItem(it, false)))
  const last = answer.entries.filter(it => it.name === name).pop()
  if (!draws || !last || picture === name + last.time) return
  picture = name + last.time
  const link = 'picture?name=' + encodeURIComponent(name) + '&at=' + last.time, image = new Image()
  image.alt = `The orchestrator, the controller and the nodes as lanes, and what happened to ${name} last as arrows between them; the list above says the same.`
  image.id = 'picture-image'
  image.onload = () => { by('picture-image').replaceWith(image); by('picture-link').href = link; by('picture').hidden = false; by('picture-fault').hidden = true }
  image.onerror = () => { by('picture').hidden = true; by('picture-fault').hidden = false; by('picture-fault').textContent = 'There is no picture of it.' }
  image.src = link
}

// ---- parts, on a narrow screen

function tab(name) {
  document.body.dataset.tab = name
  for (const button of document.querySelectorAll('nav button')) button.setAttribute('aria-pressed', String(button.dataset.tab === name))
  soon()
}
for (const button of document.querySelectorAll('nav button')) button.onclick = () => tab(button.dataset.tab)
if (location.hash.length > 1) show(decodeURIComponent(location.hash.slice(1)))
