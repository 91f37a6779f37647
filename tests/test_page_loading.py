"""A page that loads, that cannot run its program, and what its policy keeps out."""
import threading
from http.server import BaseHTTPRequestHandler, ThreadingHTTPServer

from tests.page_support import URL, ChromiumCase, FirefoxCase, call, text_of, visit

# tries to run scripts from a text and to fetch from this address, each by an element; answers which ran or was applied
TEMPT = """async (address) => {
  const root = document.body.appendChild(document.createElement("div")), ran = window.tempted = [];
  root.innerHTML = `<a id="tempting" href="javascript:tempted.push('href')" onclick="tempted.push('handler')"></a>
    <i style="display: none"></i><link rel="stylesheet" href="${address}style.css"><link rel="prefetch" href="${address}prefetch">
    <img src="${address}image.png" alt=""><audio src="${address}audio" preload="auto"></audio><iframe src="${address}frame"></iframe>`;
  const add = (props) => root.appendChild(Object.assign(document.createElement("script"), props));
  add({ textContent: "tempted.push('inline')" });
  for (const src of ["data:text/javascript,tempted.push('data')", `${address}script.js`]) add({ src });
  document.getElementById("tempting").click();
  await new FontFace("tempting", `url(${address}font)`).load().then(() => ran.push("font"), () => {});
  await new Promise((done) => setTimeout(done, 1000));
  if (getComputedStyle(root.querySelector("i")).display === "none") ran.push("style");
  root.remove();
  return ran;
}"""
IN_SIGHT = ("[...document.querySelectorAll('#loading, noscript p, #no-engine, main, .verdict')]"
            ".filter(e => e.checkVisibility())")


class Loading:
    is_quiet = False

    def test_a_browser_without_webassembly_gets_a_sentence(self):
        b = self.b
        undo = b.before_load("WebAssembly.instantiate = () => Promise.reject(new Error('no such thing'))")
        visit(b, URL)
        self.check("it names the browsers", text_of(b, "#no-engine"),
                   "This browser cannot run the program. The page needs Chrome or Edge 123, Firefox 125, Safari 17.5, or "
                   "later. (no such thing)")
        self.check("and nothing else", b.run(f"{IN_SIGHT}.map(e => e.id)"), ["no-engine"])
        undo()
        self.nothing_fetched()

    def test_the_policy_lets_nothing_foreign_run_or_be_fetched(self):
        """A server sees no request."""
        b = self.b
        asked = []

        class Handler(BaseHTTPRequestHandler):
            def do_GET(self):
                asked.append(self.path)
                self.send_response(200)
                self.end_headers()
                self.wfile.write(b"window.tempted && tempted.push('remote')")

            def log_message(self, *_):
                pass

        server = ThreadingHTTPServer(("127.0.0.1", 0), Handler)
        threading.Thread(target=server.serve_forever, daemon=True).start()
        try:
            visit(b, URL)
            ran = call(b, f"({TEMPT})", f"http://127.0.0.1:{server.server_port}/")
        finally:
            server.shutdown()
            server.server_close()
        self.check("the policy lets nothing foreign run", ran, [])
        self.check("and nothing be fetched", sorted(asked), [])


class Chromium(Loading, ChromiumCase):
    def test_until_the_program_is_there_one_sentence_is_shown(self):
        """Without scripts too. No verdict with a green edge is shown."""
        b = self.b
        undo = b.before_load("WebAssembly.instantiate = () => new Promise(() => {})")
        b.go(URL)
        self.check("a page that loads", b.run(f"{IN_SIGHT}.map(e => e.textContent)"), ["The page loads its program."])
        undo()
        b.ask("Emulation.setScriptExecutionDisabled", value=True)
        b.go(URL)
        self.check("a page without scripts", b.run(f"{IN_SIGHT}.map(e => e.textContent)"),
                   ["This page needs JavaScript. The program rdsrt does the same in a terminal."])
        b.ask("Emulation.setScriptExecutionDisabled", value=False)
        visit(b, URL)
        self.check("a page with its program", b.run(f"{IN_SIGHT}.map(e => e.tagName)"), ["MAIN"])


class Firefox(Loading, FirefoxCase):
    pass
