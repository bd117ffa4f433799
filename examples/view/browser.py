"""A headless browser, led over a pipe: Debian's chromium speaks the DevTools protocol there, as JSON with a zero byte
behind each message. Python's standard library alone."""
import base64, fcntl, json, os, select, shutil, subprocess, tempfile, time

NAMES = ('chromium', 'chromium-browser', 'google-chrome')
KEYS = {'ArrowLeft': 37, 'ArrowUp': 38, 'ArrowRight': 39, 'ArrowDown': 40, 'Home': 36, 'End': 35, 'Enter': 13,
        'Escape': 27, 'Tab': 9}
SHIFT = 8


def there():
    return next(filter(None, map(shutil.which, NAMES)), None)


class Browser:
    def __init__(self, wide=1400, high=900):
        self.folder = tempfile.mkdtemp(prefix='mondrix-view-')
        (low_read, self.out), (self.heard, low_write) = os.pipe(), os.pipe()
        read, write = (fcntl.fcntl(low, fcntl.F_DUPFD, 10) for low in (low_read, low_write))  # (not 3 and 4)
        words = [there(), '--headless=new', '--no-sandbox', '--disable-gpu', '--hide-scrollbars', '--no-first-run',
                 '--disable-extensions', '--disable-background-networking', f'--user-data-dir={self.folder}',
                 f'--window-size={wide},{high}', '--remote-debugging-pipe', 'about:blank']
        self.process = subprocess.Popen(['bash', '-c', f'exec "$@" 3<&{read} 4>&{write} {read}<&- {write}>&-', '-',
                                         *words], pass_fds=(read, write), stdin=subprocess.DEVNULL,
                                        stdout=subprocess.DEVNULL, stderr=subprocess.DEVNULL)
        os.close(read), os.close(write), os.close(low_read), os.close(low_write)
        self.number, self.rest, self.told, self.session = 0, b'', [], None
        target = self.ask('Target.createTarget', url='about:blank')['targetId']
        self.session = self.ask('Target.attachToTarget', targetId=target, flatten=True)['sessionId']
        for domain in ('Page', 'Runtime', 'Network', 'Log'):
            self.ask(f'{domain}.enable')
        self.size(wide, high)

    def __enter__(self):
        return self

    def __exit__(self, *_):
        try:
            self.session = None
            self.ask('Browser.close')
            self.process.wait(10)
        except Exception:
            self.process.kill()
            self.process.wait()
        os.close(self.out), os.close(self.heard)
        shutil.rmtree(self.folder, True)

    def message(self, seconds):
        end = time.monotonic() + seconds
        while b'\0' not in self.rest:
            if not select.select([self.heard], [], [], max(0, end - time.monotonic()))[0]:
                raise TimeoutError('the browser says nothing')
            more = os.read(self.heard, 1 << 16)
            if not more:
                raise EOFError('the browser has ended')
            self.rest += more
        text, _, self.rest = self.rest.partition(b'\0')
        return json.loads(text)

    def ask(self, method, **words):
        self.number += 1
        wanted = {'id': self.number, 'method': method, 'params': words}
        if self.session:
            wanted['sessionId'] = self.session
        os.write(self.out, json.dumps(wanted).encode() + b'\0')
        while True:
            said = self.message(120)
            if said.get('id') == self.number:
                if 'error' in said:
                    raise RuntimeError(f'{method}: {said["error"]["message"]}')
                return said['result']
            if 'method' in said:
                self.told.append(said)

    def size(self, wide, high, scale=1):
        self.ask('Emulation.setDeviceMetricsOverride', width=wide, height=high, deviceScaleFactor=scale, mobile=False)

    def media(self, **features):
        """As `scheme='dark'` for prefers-color-scheme, and `kind='print'`."""
        self.ask('Emulation.setEmulatedMedia', media=features.get('kind', ''), features=[
            {'name': 'prefers-color-scheme', 'value': features.get('scheme', 'light')},
            {'name': 'prefers-reduced-motion', 'value': features.get('motion', 'reduce')}])

    def open(self, file):
        self.told.clear()
        self.ask('Page.navigate', url='file://' + os.path.abspath(file))
        end = time.monotonic() + 120
        while self.value('document.readyState') != 'complete':
            if time.monotonic() > end:
                raise TimeoutError(f'{file} is never complete')
            time.sleep(0.05)

    def value(self, text):
        """What an expression of the page gives."""
        said = self.ask('Runtime.evaluate', expression=text, returnByValue=True, awaitPromise=True)
        if 'exceptionDetails' in said:
            detail = said['exceptionDetails']
            raise RuntimeError(f'{text[:80]}: {detail.get("exception", {}).get("description", detail["text"])}')
        return said['result'].get('value')

    def press(self, key, shift=False):
        text = key if len(key) == 1 else '\r' if key == 'Enter' else ''
        words = {'key': key, 'modifiers': SHIFT if shift else 0, 'windowsVirtualKeyCode': KEYS.get(key, 0)}
        self.ask('Input.dispatchKeyEvent', type='keyDown', text=text, **words)
        self.ask('Input.dispatchKeyEvent', type='keyUp', **words)

    def type(self, text):
        self.ask('Input.insertText', text=text)

    def click(self, selector, place=0):
        """On the middle of the first part of an element, as a mouse does."""
        x, y = self.value(f'''(() => {{ const found = document.querySelectorAll({json.dumps(selector)})[{place}];
            found.scrollIntoView({{block: 'center'}}); const {{left, top, width, height}} = found.getClientRects()[0];
            return [left + width / 2, top + height / 2]; }})()''')
        self.click_at(x, y)

    def click_at(self, x, y):
        self.drag(x, y, x)

    def drag(self, x, y, to):
        self.mouse('mousePressed', x, y)
        if to != x:
            for part in range(1, 6):
                self.mouse('mouseMoved', x + (to - x) * part / 5, y)
        self.mouse('mouseReleased', to, y)

    def mouse(self, kind, x, y, **words):
        self.ask('Input.dispatchMouseEvent', type=kind, x=x, y=y, button='left', buttons=int(kind != 'mouseReleased'),
                 clickCount=1, **words)

    def wheel(self, x, y, down):
        self.ask('Input.dispatchMouseEvent', type='mouseWheel', x=x, y=y, deltaX=0, deltaY=down)

    def picture(self, file, whole=False, clip=None):
        words = {'clip': {**clip, 'scale': 1}} if clip else {}
        said = self.ask('Page.captureScreenshot', format='png', captureBeyondViewport=whole, **words)
        with open(file, 'wb') as picture:
            picture.write(base64.b64decode(said['data']))

    def paper(self):
        """The page as a PDF."""
        return base64.b64decode(self.ask('Page.printToPDF', preferCSSPageSize=True, printBackground=True)['data'])

    def complaints(self):
        """What went wrong in the page, and what it asked the network for, beside itself."""
        self.value('0')
        found = []
        for said in self.told:
            words = said['params']
            if said['method'] == 'Runtime.exceptionThrown':
                found.append(words['exceptionDetails'].get('exception', {}).get('description', 'exception'))
            elif said['method'] == 'Log.entryAdded' and words['entry']['level'] in ('error', 'warning'):
                found.append(words['entry']['text'])
            elif said['method'] == 'Network.requestWillBeSent' and words.get('type') != 'Document':
                found.append('asks for ' + words['request']['url'])
        return found
