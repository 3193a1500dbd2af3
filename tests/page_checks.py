"""Checks of the page that `--format html` writes, in a real browser without a window; without one they are left out.

A script in the page clicks a cell, or moves by keys, and what the page then shows is read from it.
"""
import json
import pathlib
import re
import shutil
import subprocess
import tempfile

from play_checks import told
from wenirako import page
from wenirako.report import Report

BROWSERS = ("chromium", "chromium-browser", "google-chrome")
SECONDS = 300


def browser():
    return next(filter(None, map(shutil.which, BROWSERS)), None)


def example():
    """What a page shows of two lines and two namespaces."""
    ends = [{"name": name, "namespace": name.partition("/")[0] if "/" in name else ""} for name in ("shop/cart", "shop/web", "pay/ledger", "world")]
    line = {"ports": "TCP 8443", "before": "denied-by-default", "after": "allowed", "does": "opens", "unsure": False}
    reasons = ["egress: shop/cart-to-ledger#0.egress[0]", "ingress: pay/ledger-from-cart#0.ingress[0]"]
    lines = [
        {**line, "from": [0], "to": [2], "froms": "shop/cart (2 pods)", "tos": "pay/ledger-0", "reasons": reasons},
        {**line, "from": [3], "to": [2], "froms": "world", "tos": "pay/ledger-0", "does": "shuts", "before": "allowed", "after": "denied-by-rule", "reasons": ["ingress: <b>guard</b>#0"]},
    ]
    return {"question": "diff", "summary": "1 line opens and 1 shuts", "ends": ends, "lines": lines, "notes": ["a note </script>"]}


def many():
    """What a page shows of 8,000 lines between 300 workloads."""
    ends = [{"name": f"n{it % 12}/app-{it}", "namespace": f"n{it % 12}"} for it in range(300)]
    line = {"before": "allowed", "after": "denied-by-rule", "does": "shuts", "unsure": False, "reasons": ["ingress: a/b#0.ingressDeny[0]"]}
    lines = [{**line, "from": [it % 300], "to": [it * 7 % 299], "froms": ends[it % 300]["name"], "tos": ends[it * 7 % 299]["name"], "ports": f"TCP {it}"} for it in range(8000)]
    return {"question": "diff", "summary": "8000 lines shut", "ends": ends, "lines": lines, "notes": []}


def shown(value, script):
    """The document as it stands once the script has run in the page of a value, and what is written into #told."""
    whole = page.html
    given, page.data = page.data, lambda report: value
    try:
        text = whole(Report("diff", value["summary"], (), [], []))
    finally:
        page.data = given
    run = f"window.addEventListener('load', () => {{ const told = []; {script}; document.body.append(make('pre', {{id: 'told'}}, JSON.stringify(told))); }});"
    with tempfile.TemporaryDirectory() as folder:
        path = pathlib.Path(folder) / "page.html"
        path.write_text(text.replace("</body>", f"<script>{run}</script></body>"))
        words = [browser(), "--headless", "--no-sandbox", "--disable-gpu", f"--user-data-dir={folder}/profile", "--window-size=1300,800", "--dump-dom", path.as_uri()]
        done = subprocess.run(words, stdout=subprocess.PIPE, stderr=subprocess.DEVNULL, timeout=SECONDS, text=True)
    found = re.search(r'<pre id="told">(.*?)</pre>', done.stdout, re.S)
    return json.loads(found[1].replace("&lt;", "<").replace("&gt;", ">").replace("&amp;", "&")) if found else ["the script didn't end"]


def a_click_tells_why(wrong):
    script = """
        document.querySelector('td[data-from="shop/cart"][data-to="pay/ledger"]').click();
        const why = document.getElementById('why');
        told.push(why.querySelector('h2').textContent, why.querySelector('.ports').textContent, why.querySelector('.verdict').textContent);
        told.push([...why.querySelectorAll('li')].map(it => it.textContent));
        const cell = document.activeElement;
        cell.dispatchEvent(new KeyboardEvent('keydown', {key: 'ArrowDown', bubbles: true}));
        told.push(document.activeElement.dataset.from);
        document.activeElement.dispatchEvent(new KeyboardEvent('keydown', {key: 'Enter', bubbles: true}));
        told.push(why.querySelector('li').textContent, document.querySelectorAll('b').length)
    """
    lines = example()["lines"]
    wanted = ["shop/cart \u2192 pay/ledger", "TCP 8443", "denied-by-default \u2192 allowed", lines[0]["reasons"], "world", lines[1]["reasons"][0], 0]
    told(wrong, "what a click and keys tell", shown(example(), script), wanted)


def cells_fold_and_are_filtered(wrong):
    script = """
        const cells = () => [...document.querySelectorAll('td[tabindex]')].map(it => [it.dataset.from, it.dataset.to, it.className]);
        document.getElementById('fold').click();
        told.push(cells());
        document.querySelector('tbody button.fold').click();
        const filter = document.getElementById('filter');
        filter.value = 'guard'; filter.dispatchEvent(new Event('input'));
        told.push(cells());
        window.dispatchEvent(new Event('beforeprint'));
        told.push(document.querySelectorAll('#all tbody tr').length, document.getElementById('notes').textContent.includes('a note <' + '/script>'))
    """
    both = [["shop/*", "pay/*", "opens"], ["world", "pay/*", "shuts"]]
    told(wrong, "folded, filtered and printed", shown(example(), script), [both, both[1:], 2, True])


def what_may_change_is_told(wrong):
    value = example()
    value["lines"].append({**value["lines"][0], "from": [1], "before": "denied-by-default", "after": "denied-by-default", "does": "unsure", "unsure": True})
    value["lines"][0]["unsure"] = True
    script = """
        const cell = name => document.querySelector(`td[data-from="${name}"]`);
        told.push(cell('shop/web').className, cell('shop/web').textContent, cell('shop/cart').className, document.getElementById('key').textContent.includes('? unsure'));
        cell('shop/web').click();
        told.push(document.querySelector('#why .verdict').textContent)
    """
    told(wrong, "what may change", shown(value, script), ["unsure marked", "?", "opens marked", True, "denied-by-default \u2192 unsure"])


def thousands_of_rows_are_shown(wrong):
    script = """
        told.push(document.querySelectorAll('td[tabindex]').length > 0, document.getElementById('count').textContent.startsWith('8000 of 8000 lines, 12'));
        const start = performance.now();
        document.getElementById('unfold').click();
        told.push(document.querySelectorAll('tbody tr').length, performance.now() - start < 60000);
        document.querySelector('td[tabindex]').click();
        told.push(document.querySelectorAll('#why .reasons li').length > 0)
    """
    told(wrong, "8,000 lines", shown(many(), script), [True, True, 300, True, True])


def run(check):
    wrong = []
    check(wrong)
    return wrong


def checks():
    listed = (a_click_tells_why, cells_fold_and_are_filtered, what_may_change_is_told, thousands_of_rows_are_shown)
    if browser() is None:
        print(f"left out, since there is no browser ({', '.join(BROWSERS)}): page, {len(listed)} checks")
        return []
    return [(f"page {it.__name__.replace('_', ' ')}", lambda it=it: run(it)) for it in listed]
