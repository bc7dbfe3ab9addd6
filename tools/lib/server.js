'use strict';
// Pages on this machine alone: a server on 127.0.0.1 with a port and a path that nobody else can guess. It keeps nothing between two pages.

const http = require('http');
const { randomBytes, timingSafeEqual } = require('crypto');
const { POLICY, escape, pageOf } = require('./page.js');
const { Refused } = require('./routes.js');

const HOST = '127.0.0.1';
const TOKEN_BYTES = 16;

const HEADERS = {
  'Content-Type': 'text/html; charset=utf-8',
  'Content-Security-Policy': `${POLICY}; frame-ancestors 'none'`,
  'X-Content-Type-Options': 'nosniff',
  'Referrer-Policy': 'no-referrer',
  'Cross-Origin-Resource-Policy': 'same-origin',
  'Cross-Origin-Opener-Policy': 'same-origin',
  'Cache-Control': 'no-store',
};

const same = (a, b) => Buffer.byteLength(a) === Buffer.byteLength(b) && timingSafeEqual(Buffer.from(a), Buffer.from(b));

// The answer to a request: a page, or why there is none. A page of another site can reach this port, but knows no token, and names another host.
function answerTo({ method, url, headers }, { host, token, pages }) {
  if (headers.host !== host) return [403, 'this is not the address of these pages'];
  const [path, search = ''] = url.split(/\?(.*)/s);
  if (!same(path, `/${token}/`)) return [404, 'there is no such page'];
  if (method !== 'GET' && method !== 'HEAD') return [405, 'pages are only read'];
  try {
    return [200, null, pages(search)];
  } catch (e) {
    if (!(e instanceof Refused)) throw e;
    return [400, e.message];
  }
}

function respond(request, response, site, failed) {
  let answer;
  try { answer = answerTo(request, site); } catch (e) { failed(e); answer = [500, 'a fault of the viewer: see the terminal']; }
  const [status, why, page] = answer;
  const body = page || pageOf(String(status), `<p class="wrong">${escape(why)}</p>`);
  response.writeHead(status, HEADERS);
  response.end(request.method === 'HEAD' ? undefined : body);
}

// Gives the address once pages can be asked for. `pages` makes the page of what stands behind the question mark of an address.
function serve(pages, failed) {
  const token = randomBytes(TOKEN_BYTES).toString('hex');
  const site = { token, pages };
  const server = http.createServer((request, response) => respond(request, response, site, failed));
  return new Promise((resolve, reject) => {
    server.on('error', reject);
    server.listen(0, HOST, () => {
      site.host = `${HOST}:${server.address().port}`;
      resolve(`http://${site.host}/${token}/`);
    });
  });
}

module.exports = { serve };
