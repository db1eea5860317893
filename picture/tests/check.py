#!/usr/bin/env python3
"""Opens pages in a headless Chromium, drives them, and fails at what a reader would stumble over. check.py [SCREENS]:
with a folder SCREENS, pictures of the five examples are left there."""
import json
import os
import statistics
import sys
import tempfile
import time
import xml.dom.minidom

import generate
from browser import Browser
from examples import HOSTILE, NAMES, example, page_of, small, text
from folding import states_of

MOST_TO_OPEN, MOST_TO_STEP = 3.0, .050

# The labels of the chart that overlap, after all of it was scrolled into sight, and the labels of a small graph.
OVERLAPS = '''(async () => {
  const box = document.getElementById('chart'), found = new Set();
  const compare = parts => {
    const spots = parts.map(part => [part, part.getBoundingClientRect()]).sort((a, b) => a[1].top - b[1].top);
    spots.forEach(([part, a], place) => {
      for (const [other, b] of spots.slice(place + 1)) {
        if (b.top >= a.bottom - 1) break;
        const words = [part, other].map(each => each.textContent.slice(0, 40) || each.className.baseVal);
        if (Math.min(a.right, b.right) - Math.max(a.left, b.left) > 1) found.add(words.join(' / '));
      }
    });
  };
  for (let top = 0; top <= box.scrollHeight; top += box.clientHeight / 2) {
    box.scrollTop = top;
    await new Promise(done => requestAnimationFrame(() => requestAnimationFrame(done)));
    compare([...document.querySelectorAll('#chart-rows :is(.label-box, .value-label, .outcome, .row-number, .diamond)')]);
  }
  compare([...document.querySelectorAll('#chart-names :is(.column-name:not(.turned), .column-number)')]);
  compare([...document.querySelectorAll('#graph .name:not(.radial)')]);
  const turned = [...document.querySelectorAll('#chart-names .turned')].map(part => part.transform.baseVal[0].matrix.e);
  const apart = turned.slice(1).map((x, place) => (x - turned[place]) * Math.sin(38 * Math.PI / 180));
  if (apart.some(distance => distance < 12)) found.add('names of columns');
  return [...found];
})()'''

# The names in the graph that are cut off at its edge.
CUT = '''[...document.querySelectorAll('#graph .name')].filter(part => {
  const [name, box] = [part, part.ownerSVGElement].map(each => each.getBoundingClientRect());
  return name.left < box.left - 1 || name.right > box.right + 1 || name.top < box.top - 1 || name.bottom > box.bottom + 1;
}).map(part => part.textContent)'''

# What the table of agents shows, agent by agent: value, waits, ruled out values, view, kept nogoods.
SHOWN = '''[...document.querySelectorAll('#agent-rows .agent-row')].map(row => {
  const words = parts => [...parts].map(part => part.textContent);
  const own = row.querySelector('.chip.current');
  return { value: own ? own.firstChild.textContent : null, waits: !!row.querySelector('.waiting'),
    out: [...row.querySelectorAll('.chip:has(.why)')].map(part => words([part.firstChild, part.lastChild]).join(':')),
    view: words(row.querySelectorAll('.knows .pair')), kept: words(row.querySelectorAll('.nogood-number')) };
})'''


# The controls that a screen reader has no name for.
NAMELESS = '''[...document.querySelectorAll('button, select, input, summary, [tabindex="0"]')].filter(part =>
  !['aria-label', 'aria-labelledby'].some(name => part.getAttribute(name))
  && !part.textContent.trim() && !part.labels?.length
).map(part => part.outerHTML.slice(0, 80))'''


class Check:
    def __init__(self, browser, room):
        self.browser, self.room, self.failed = browser, room, 0

    def tell(self, what, is_good, more=''):
        if is_good:
            print('ok      ' + what)
        else:
            self.failed += 1
            print('FAILED  %s%s' % (what, more and ': %s' % (more,)))

    def page(self, name, texts):
        """The file of a page of these texts, `title` among them."""
        path = os.path.join(self.room, name + '.html')
        with open(path, 'w', encoding='utf-8') as file:
            file.write(page_of(**texts))
        return path

    def quiet(self, what):
        """No script error and no request to the network since the last call."""
        problems, self.browser.problems = self.browser.problems, []
        self.tell(what + ': no script error, no request', not problems, problems)

    def count(self):
        return self.browser.value('document.getElementById("slider").value')

    def comes(self, condition, seconds=10):
        """Whether an expression comes true in the page within this time."""
        end = time.monotonic() + seconds
        while not self.browser.value(condition):
            if time.monotonic() > end:
                return False
            time.sleep(.02)
        return True

    def downloaded(self, suffix):
        """The text of a file that the page saved, which is taken away."""
        end = time.monotonic() + 10
        while time.monotonic() < end:
            names = [name for name in os.listdir(self.browser.room) if name.endswith(suffix)]
            if names:
                path = os.path.join(self.browser.room, names[0])
                time.sleep(.1)
                saved = text(path)
                os.remove(path)
                return saved
            time.sleep(.05)
        return ''


# -- what is checked of each example

def check_example(check, name):
    texts = example(name)
    path = check.page(name, texts)
    last = int(texts['measures'].split('deliveries ')[1].split()[0])
    for width in (1440, 360):
        check.browser.open(path, width=width, height=1000)
        overlaps = check.browser.value(OVERLAPS)
        check.tell('%s, %d wide: no labels overlap' % (name, width), overlaps == [], overlaps)
        cut = check.browser.value(CUT)
        check.tell('%s, %d wide: no name in the graph is cut off' % (name, width), cut == [], cut)
        wide = check.browser.value('document.documentElement.scrollWidth')
        check.tell('%s, %d wide: nothing stands out to the right' % (name, width), wide <= width, wide)
    check.quiet(name)
    check_keys(check, name, path, last)
    check_controls(check, name, path, last, texts)
    check_fold(check, name, path, texts)
    check_saved(check, name)


def check_keys(check, name, path, last):
    browser = check.browser
    browser.open(path)
    seen = []
    for key in ('ArrowRight', 'ArrowRight', 'ArrowLeft', 'n', 'End', 'ArrowRight', 'Home', 'ArrowLeft'):
        browser.press(key)
        seen.append(int(check.count()))
    first_nogood = int(next(line for line in example(name)['story'].split('\n') if ' makes n1' in line).split()[0])
    wanted = [1, 2, 1, max(first_nogood, seen[3]), last, last, 0, 0]
    check.tell(name + ': keys', seen == wanted, (seen, wanted))
    browser.press(' ')
    playing = browser.value('document.getElementById("play").textContent')
    plays = check.comes('Number(document.getElementById("slider").value) >= 1')
    browser.press(' ')
    paused = browser.value('document.getElementById("play").textContent')
    good = plays and 'Pause' in playing and 'Play' in paused
    check.tell(name + ': space plays and pauses', good, (plays, playing, paused))
    told = browser.value('document.getElementById("live").textContent')
    browser.press('ArrowRight')
    tells = browser.value('document.getElementById("live").textContent')
    check.tell(name + ': the live region tells each step', tells not in ('', told))
    named = check.comes('location.hash === "#d=" + document.getElementById("slider").value')
    check.tell(name + ': the address names the delivery', named)
    check.quiet(name + ', keys')


def follow(check, number):
    """Whether the page comes to a delivery that its address is made to name."""
    check.browser.value('location.hash = "#d=%d"; 1' % number)
    return check.comes('document.getElementById("slider").value === "%d"' % number)


def slide(browser, number):
    browser.value('{ const slider = document.getElementById("slider"); slider.value = %d; slider.oninput(); }' % number)


def choose(browser, control, value):
    browser.value('{ const control = document.getElementById("%s"); control.value = "%s"; control.onchange(); }'
                  % (control, value))


def check_controls(check, name, path, last, texts):
    browser = check.browser
    browser.open(path, hash_='#d=7')
    check.tell(name + ': a link opens at its delivery', check.count() == '7')
    check.tell(name + ': the page follows the address', follow(check, 3))
    seen = []
    for button in ('next', 'back', 'last', 'first', 'next-nogood'):
        browser.click(button)
        seen.append(int(check.count()))
    check.tell(name + ': buttons', seen[:4] == [4, 3, last, 0] and 0 < seen[4] <= last, seen)
    slide(browser, 5)
    check.tell(name + ': the slider moves', '5 of' in browser.value('document.getElementById("count").textContent'))
    longest = int(texts['measures'].split('longest-chain ')[1].split()[0])
    choose(browser, 'chain', 'longest')
    browser.click('save-chart')
    saved = check.downloaded('-chart.svg')
    drawn = saved.count('class="chain"')
    check.tell(name + ': the chart is saved with the longest chain', drawn == longest, drawn)
    xml.dom.minidom.parseString(saved or '<none/>')
    for agent in ('1', ''):
        choose(browser, 'filter', agent)
        browser.click('next')
        browser.click('numbers')
        overlaps = browser.value(OVERLAPS)
        check.tell('%s, agent %s: no labels overlap' % (name, agent or 'all'), overlaps == [], overlaps)
    check_looks(check, name)
    check.quiet(name + ', controls')


def check_looks(check, name):
    """With all parts open: names of controls, dark colours, paper."""
    browser = check.browser
    browser.value('document.querySelectorAll("details").forEach(part => { part.open = true; })')
    browser.value('document.querySelectorAll(".unfold").forEach(part => part.click())')
    nameless = browser.value(NAMELESS)
    check.tell(name + ': each control has a name', nameless == [], nameless)
    browser.click('theme')
    check.tell(name + ': light and dark', browser.value('getComputedStyle(document.documentElement).colorScheme') == 'dark')
    browser.paper(os.path.join(check.room, name + '.pdf'))


def check_fold(check, name, path, texts):
    """What the page shows after each of some deliveries is what a fold of the story here says."""
    browser, wrong = check.browser, []
    browser.open(path)
    run = browser.value('JSON.parse(document.getElementById("run").textContent)')
    states = list(enumerate(states_of(texts['story'], run['variables'])))
    some = states[::max(1, len(states) // 40)]
    for number, state in some + some[::-1]:
        if not follow(check, number) or browser.value(SHOWN) != state:
            wrong.append(number)
    check.tell(name + ': values, views, nogoods and waits are those of the story', wrong == [], wrong)


def check_saved(check, name):
    browser = check.browser
    for section in ('derivation', 'last-round') if name == 'makespan' else ('derivation',):
        browser.value('document.querySelector("#%s .save").click()' % section)
        saved = check.downloaded('-%s.svg' % section)
        xml.dom.minidom.parseString(saved or '<none/>')
        check.tell('%s: the tree of the %s is saved' % (name, section), saved.count('<text') > 3)
    browser.paper(os.path.join(check.room, name + '.pdf'))
    closed = check.comes('!document.getElementById("rules-box").open && document.querySelector("#rules li") !== null')
    check.tell(name + ': what was opened for paper is closed again', closed)
    title = browser.value('document.getElementById("last-round-title").textContent')
    wanted = 'Why no value of done is better than 7' if name == 'makespan' else ''
    check.tell(name + ': the last round is told', title == wanted, title)
    check.quiet(name + ', saving')


# -- small and hostile runs

def check_small(check):
    browser = check.browser
    for name, texts in small().items():
        path = check.page(name, texts)
        for width in (1440, 360):
            browser.open(path, width=width)
            browser.value('document.querySelectorAll("details").forEach(part => { part.open = true; })')
            for key in ('ArrowRight', 'n', 'End', 'ArrowLeft', 'Home', ' ', ' '):
                browser.press(key)
            browser.value('for (const name of document.querySelectorAll(".name-button")) { name.click(); name.click(); }')
            wide = browser.value('document.documentElement.scrollWidth')
            check.tell('%s, %d wide: nothing stands out to the right' % (name, width), wide <= width, wide)
        browser.click('numbers')
        browser.click('save-chart')
        check.tell(name + ': the chart is saved', '<svg' in check.downloaded('-chart.svg'))
        browser.paper(os.path.join(check.room, 'small.pdf'))
        check.quiet(name)
        if name == 'hostile':
            check_hostile(check)
        if name == 'backwards':
            names = browser.value('[...document.querySelectorAll(".column-name")].map(part => part.firstChild.data)')
            check.tell('backwards: the agents stand in the order that is given', names == ['y', 'x'], names)


def check_hostile(check):
    title = check.browser.value('document.querySelector("h1").textContent')
    check.tell('hostile: the title is shown as it is', title == HOSTILE, title)
    scripts = check.browser.value('[...document.scripts].filter(part => part.type !== "application/json").length')
    images = check.browser.value('document.images.length')
    check.tell('hostile: no element comes of a text', (scripts, images) == (1, 0), (scripts, images))


# -- a long run

def check_long(check):
    generate.main(check.room, 100000)
    names = {'model': 'model.fzn', 'story': 'story.txt', 'log': 'log.ngd', 'measures': 'measures.txt'}
    path = check.page('long', {**{part: text(check.room, name) for part, name in names.items()}, 'title': 'long'})
    before = check.browser.process_seconds()
    took = check.browser.open(path)
    own = check.browser.process_seconds() - before
    check.tell('100,000 deliveries open with %.2f s of processor time, in %.2f s' % (own, took), own < MOST_TO_OPEN)
    times = check.browser.value('''(async () => {
      const took = [], frame = () => new Promise(done => requestAnimationFrame(done));
      const step = async (id, count) => {
        for (let k = 0; k < count; k += 1) {
          const begun = performance.now();
          document.getElementById(id).click();
          document.body.offsetHeight;
          took.push(performance.now() - begun);
          await frame();
        }
      };
      await step('next', 30);
      const slider = document.getElementById('slider');
      slider.value = 60000;
      slider.oninput();
      await step('next', 30);
      await step('back', 30);
      return took;
    })()''')
    middle, most = statistics.median(times) / 1000, max(times) / 1000
    check.tell('a step takes %.0f ms, the longest %.0f ms' % (middle * 1000, most * 1000), middle < MOST_TO_STEP)
    run = check.browser.value('JSON.parse(document.getElementById("run").textContent)')
    for number, state in enumerate(states_of(text(check.room, 'story.txt'), run['variables'], {2047, 60000, 99999})):
        if state:
            slide(check.browser, number)
            check.tell('long: the state after delivery %d' % number, check.browser.value(SHOWN) == state)
    check.quiet('long')


def take_pictures(check, folder):
    for name in NAMES:
        path = os.path.join(check.room, name + '.html')
        for look, words in (('light', {}), ('dark', {'dark': True}), ('narrow', {'width': 360})):
            check.browser.open(path, hash_='#d=16', **words)
            time.sleep(.5)
            check.browser.picture(os.path.join(folder, '%s-%s.png' % (name, look)))
        check.browser.paper(os.path.join(folder, name + '.pdf'))


def main(screens=None):
    with tempfile.TemporaryDirectory() as room, Browser() as browser:
        check = Check(browser, room)
        for name in NAMES:
            check_example(check, name)
        check_small(check)
        check_long(check)
        if screens:
            take_pictures(check, screens)
    print('%d failed' % check.failed if check.failed else 'all is well')
    return 1 if check.failed else 0


if __name__ == '__main__':
    sys.exit(main(*sys.argv[1:]))
