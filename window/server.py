"""The web server: Debian's cheroot. Its one thread takes what all connections send, without waiting for any,
with a limit for each address and a time for each part of a request. A worker gets a connection once its
request is whole."""
import contextlib, io, math, re, selectors, socket, ssl, threading, time

from cheroot import wsgi
from cheroot.makefile import MakeFile
from cheroot.server import HTTPConnection, HTTPRequest
from cheroot.ssl import builtin

# Bytes of a body and of the headers, seconds for each of them and for sending a page.
BODY, HEADERS, SECONDS, SENDING = 65536, 16384, 10, 60
# How many connections may have no whole request yet, of an address and in all. How many whole requests of an
# address there may be at a time (and as many in all), and how many workers answer them.
CONNECTIONS, ALL, REQUESTS, WORKERS = 16, 400, 48, 64
CROWDED, SLOW, CLOSED = 'too many connections', 'too slow', 'closed'
LENGTH = re.compile(rb'(?i)\r\ncontent-length:[ \t]*(\d{1,9})[ \t]*\r\n')


class Request(HTTPRequest):
    """One request, which has come as a whole; its connection is closed after it."""

    def parse_request(self):
        super().parse_request()
        self.close_connection = True
        if self.ready and (self.chunked_read or not self.inheaders.get(b'Content-Length', b'0').isdigit()):
            self.ready = False
            self.simple_response('411 Length Required', 'A body needs its length.')

    def respond(self):
        size = int(self.inheaders.get(b'Content-Length', 0))
        body = self.conn.rfile.read(size)
        if len(body) == size:
            self.rfile = io.BytesIO(body)
            self.server.gateway(self).respond()

    def write(self, chunk):
        self.conn.until = time.monotonic() + SENDING
        super().write(chunk)


class Connection(HTTPConnection):
    """A connection: what it has sent, until when the next part has to be there, and what it waits for. It is
    cut when its time is over."""
    RequestHandlerClass = Request
    last_used = math.inf    # cheroot shall not end it: `until` does.

    def __init__(self, server, sock, makefile):
        super().__init__(server, sock, makefile)
        sock.setblocking(False)
        self.text, self.size, self.until, self.why = bytearray(), None, time.monotonic() + SECONDS, None
        self.wants, self.is_ready, self.is_whole = selectors.EVENT_READ, not server.tls, False

    def take(self):
        """Takes what has come, without waiting for more: the handshake, and then the request. Tells whether
        it is whole."""
        try:
            tls = self.server.tls
            if tls and not isinstance(self.socket, ssl.SSLSocket):
                self.socket = tls.wrap_socket(self.socket, server_side=True, do_handshake_on_connect=False)
            if not self.is_ready:
                self.socket.do_handshake()
                self.is_ready = True
            while not self.has_all():
                more = self.socket.recv(65536)
                if not more:
                    raise ConnectionError(CLOSED)
                self.text += more
            self.is_whole, self.until = True, None
        except (BlockingIOError, ssl.SSLWantReadError):
            self.wants = selectors.EVENT_READ
        except ssl.SSLWantWriteError:
            self.wants = selectors.EVENT_WRITE
        return self.is_whole

    def has_all(self):
        """Whether the request is whole, as far as its headers tell. A worker judges it: too much counts as
        all."""
        end = self.text.find(b'\r\n\r\n')
        if end < 0:
            return len(self.text) > HEADERS
        if self.size is None:
            found = LENGTH.search(self.text, 0, end + 2)
            self.size, self.until = int(found[1]) if found else 0, time.monotonic() + SECONDS
        return self.size > BODY or len(self.text) >= end + 4 + self.size

    def communicate(self):
        """Answers the request. Whatever fails, the worker goes on."""
        try:
            self.socket.settimeout(SECONDS)
            self.rfile, self.wfile = io.BytesIO(self.text), MakeFile(self.socket, 'wb', self.wbufsize)
            super().communicate()
        except Exception as why:
            self.server.tell(self, why)
        return False

    def close(self):
        self.server.open.pop(self, None)
        with contextlib.suppress(Exception):
            super().close()
        with contextlib.suppress(OSError):
            self.socket.close()

    def cut(self, why):
        """Ends it for both sides: what reads or writes it is told so, and closes it."""
        self.why, self.until = self.why or why, None
        with contextlib.suppress(OSError):
            socket.socket.shutdown(self.socket, socket.SHUT_RDWR)


class Tls(builtin.BuiltinSSLAdapter):
    """TLS. The connection itself makes the handshake, step by step."""

    def wrap(self, sock):
        return sock, {}

    def makefile(self, sock, mode='r', bufsize=-1):
        return MakeFile(sock, mode, bufsize)


class Server(wsgi.Server):
    """The server of one application."""
    ConnectionClass, max_request_body_size, max_request_header_size = Connection, BODY, HEADERS

    def __init__(self, address, app, log):
        super().__init__(address, app, numthreads=WORKERS, server_name='window', request_queue_size=1024,
                         timeout=SECONDS)
        self.log, self.open = log, {}   # The open connections, the oldest first.
        threading.Thread(target=self.watch, daemon=True).start()

    @property
    def tls(self):
        return self.ssl_adapter and self.ssl_adapter.context

    def process_conn(self, conn):
        """Takes what a connection has sent. A worker gets it once its request is whole."""
        try:
            if conn not in self.open:
                self.open[conn] = None
                self.make_room(conn.remote_addr)
            if not conn.take():
                return self.put_conn(conn)
            whole = [it.remote_addr for it in list(self.open) if it.is_whole]
            if whole.count(conn.remote_addr) > REQUESTS or len(whole) > ALL:
                raise ConnectionError('too many requests at a time')
            super().process_conn(conn)
        except Exception as why:
            # A browser may open a connection that it then does not use: the log tells these apart.
            is_unused = conn.is_ready and not conn.text and (conn.why or str(why)) in (SLOW, CLOSED)
            self.tell(conn, why, 'connection-unused' if is_unused else 'connection-failed')
            conn.close()

    def put_conn(self, conn):
        """Waits until more can be taken."""
        if self.ready:
            self._connections._selector.register(conn.socket.fileno(), conn.wants, conn)
        else:
            conn.close()

    def make_room(self, address):
        """Cuts the oldest connection whose request is not whole, where there are too many of its address or
        in all: so nobody is kept out by connections that send nothing."""
        waiting = [it for it in list(self.open) if not (it.is_whole or it.why)]
        own = [it for it in waiting if it.remote_addr == address]
        for these, limit in (own, CONNECTIONS), (waiting, ALL):
            if len(these) > limit:
                these[0].cut(CROWDED)

    def watch(self):
        """Cuts the connections whose time is over, and has the log say what it left out."""
        while True:
            time.sleep(0.5)
            for conn in list(self.open):
                until = conn.until
                if until and until < time.monotonic():
                    conn.cut(SLOW)
            self.log.tell_omitted()

    def tell(self, conn, why, what='connection-failed'):
        """Says in the log that a connection failed, and nothing of what it sent."""
        name = str(why) if type(why) is ConnectionError else type(why).__name__
        kind = conn and conn.why or getattr(why, 'reason', None) or name
        self.log.write(what, address=conn.remote_addr if conn else '', kind=kind)

    def error_log(self, msg='', level=20, traceback=False):
        """What cheroot would write on standard error."""
        self.tell(getattr(threading.current_thread(), 'conn', None), ConnectionError(msg.split('(')[0]))
