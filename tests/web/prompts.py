"""Puts the browser's own question for a password aside, as a user does who presses 'Cancel'."""

import json
import threading
import urllib.request

import trio
import trio_websocket


def address_of(debugger):
    with urllib.request.urlopen(f'http://{debugger}/json') as reply:
        return next(page['webSocketDebuggerUrl'] for page in json.load(reply)
                    if page['type'] == 'page')


def answer_to(event):
    number = {'requestId': event.get('params', {}).get('requestId')}
    if event.get('method') == 'Fetch.requestPaused':
        return 'Fetch.continueRequest', number
    if event.get('method') == 'Fetch.authRequired':
        return 'Fetch.continueWithAuth', {**number,
                                          'authChallengeResponse': {'response': 'CancelAuth'}}
    return None


async def cancel_all(address, ready):
    async with trio_websocket.open_websocket_url(address) as socket:
        asked = [('Fetch.enable', {'handleAuthRequests': True})]
        number = 0
        while True:
            for method, words in asked:
                number += 1
                await socket.send_message(json.dumps({'id': number, 'method': method,
                                                      'params': words}))
            event = json.loads(await socket.get_message())
            if event.get('id') == 1:
                ready.set()
            answer = answer_to(event)
            asked = [answer] if answer else []


def run(address, ready):
    try:
        trio.run(cancel_all, address, ready)
    except trio_websocket.ConnectionClosed:
        pass  # The browser has ended.


def cancel_prompts(debugger):
    """From now on, until the browser ends."""
    ready = threading.Event()
    threading.Thread(target=run, args=(address_of(debugger), ready), daemon=True).start()
    assert ready.wait(20), 'the browser takes no debugger'
