"""A headless Chromium, driven over its DevTools protocol with nothing but Python's own modules."""
import base64, json, os, shutil, socket, struct, subprocess, tempfile, time, urllib.request

NAMES = ('chromium', 'chromium-browser', 'google-chrome', 'google-chrome-stable', 'chrome')


class Browser:
    def __init__(self, width, height):
        name = next((n for n in NAMES if shutil.which(n)), None)
        if name is None:
            raise SystemExit('look-test wants a Chromium: apt-get install chromium')
        self.folder = tempfile.mkdtemp()
        self.process = subprocess.Popen(
            [name, '--headless', '--no-sandbox', '--disable-gpu', '--disable-dev-shm-usage', '--hide-scrollbars',
             '--remote-debugging-port=0', '--user-data-dir=' + self.folder, f'--window-size={width},{height}', 'about:blank'],
            stdout=subprocess.DEVNULL, stderr=subprocess.DEVNULL)
        self.count = 0
        port = self.port()
        pages = json.load(urllib.request.urlopen(f'http://127.0.0.1:{port}/json/list'))
        page = next(p for p in pages if p['type'] == 'page')
        self.connect(port, page['webSocketDebuggerUrl'].split(str(port), 1)[1])
        self.call('Page.enable')
        self.size(width, height)

    def port(self):
        path = os.path.join(self.folder, 'DevToolsActivePort')
        for _ in range(600):
            if os.path.exists(path) and open(path).read().count('\n') >= 1:
                return int(open(path).read().split('\n')[0])
            time.sleep(0.1)
        raise SystemExit('look-test: Chromium opens no DevTools port')

    def connect(self, port, path):
        self.socket = socket.create_connection(('127.0.0.1', port), timeout=120)
        key = base64.b64encode(os.urandom(16)).decode()
        self.socket.sendall((f'GET {path} HTTP/1.1\r\nHost: 127.0.0.1:{port}\r\nUpgrade: websocket\r\nConnection: Upgrade\r\n'
                             f'Sec-WebSocket-Key: {key}\r\nSec-WebSocket-Version: 13\r\n\r\n').encode())
        self.buffer = b''
        while b'\r\n\r\n' not in self.buffer:
            self.buffer += self.socket.recv(4096)
        self.buffer = self.buffer.split(b'\r\n\r\n', 1)[1]

    def take(self, count):
        while len(self.buffer) < count:
            more = self.socket.recv(1 << 20)
            if not more:
                raise SystemExit('look-test: Chromium went away')
            self.buffer += more
        part, self.buffer = self.buffer[:count], self.buffer[count:]
        return part

    def receive(self):
        text = b''
        while True:
            first, second = self.take(2)
            size = second & 127
            if size == 126:
                size = struct.unpack('>H', self.take(2))[0]
            elif size == 127:
                size = struct.unpack('>Q', self.take(8))[0]
            body = self.take(size)
            if first & 15 in (0, 1):
                text += body
                if first & 128:
                    return json.loads(text)

    def call(self, method, **params):
        self.count += 1
        body = json.dumps({'id': self.count, 'method': method, 'params': params}).encode()
        size = len(body)
        head = struct.pack('>BB', 129, 128 | size) if size < 126 else (
            struct.pack('>BBH', 129, 254, size) if size < 65536 else struct.pack('>BBQ', 129, 255, size))
        self.socket.sendall(head + b'\0\0\0\0' + body)
        while True:
            answer = self.receive()
            if answer.get('id') == self.count:
                if 'error' in answer:
                    raise SystemExit(f'look-test: {method}: {answer["error"]}')
                return answer['result']

    def size(self, width, height):
        self.call('Emulation.setDeviceMetricsOverride', width=width, height=height, deviceScaleFactor=1, mobile=False)

    def open(self, path):
        """Opens a file, and answers how many seconds went by until the page said that it is ready."""
        begun = time.time()
        self.call('Page.navigate', url='file://' + os.path.abspath(path))
        while self.run('document.body && document.body.dataset.ready || ""') == '':
            if time.time() - begun > 60:
                raise SystemExit('look-test: the page does not come up')
            time.sleep(0.02)
        return time.time() - begun

    def run(self, script):
        answer = self.call('Runtime.evaluate', expression=script, returnByValue=True, awaitPromise=True)
        if 'exceptionDetails' in answer:
            raise SystemExit(f'look-test: {script}: {answer["exceptionDetails"]}')
        return answer['result'].get('value')

    def key(self, key):
        for kind in ('keyDown', 'keyUp'):
            text = {'text': key} if len(key) == 1 and kind == 'keyDown' else {}
            self.call('Input.dispatchKeyEvent', type=kind, key=key, **text)

    def click(self, x, y):
        for kind in ('mousePressed', 'mouseReleased'):
            self.call('Input.dispatchMouseEvent', type=kind, x=x, y=y, button='left', clickCount=1)

    def picture(self, path):
        data = base64.b64decode(self.call('Page.captureScreenshot', format='png')['data'])
        with open(path, 'wb') as file:
            file.write(data)

    def close(self):
        self.socket.close()
        self.process.terminate()
        self.process.wait()
        shutil.rmtree(self.folder, ignore_errors=True)
