"""Plays two users of LibreOffice at a document of a room, by its own interface (UNO).

    office_suite.py PROFILE SOFFICE COMMAND ARGUMENT ..

    save ADDRESS TEXT      opens the document, adds the text, saves it in place, prints its text
    open ADDRESS           prints the text, and whether it was opened read-only
    hold ADDRESS           opens it, prints 'open', and holds it until its input ends
    make ADDRESS TEXT      makes a new document there"""
import subprocess
import sys
import time

import uno
from com.sun.star.beans import PropertyValue
from com.sun.star.connection import NoConnectException
from com.sun.star.io import IOException

STARTS = 60


def start(profile: str, soffice: str):
    """An office suite without windows, and its desktop."""
    pipe = f"rooms{abs(hash(profile))}"
    suite = subprocess.Popen(
        [soffice, f"-env:UserInstallation=file://{profile}", "--headless", "--norestore",
         "--nologo", f"--accept=pipe,name={pipe};urp;"],
        stdin=subprocess.DEVNULL, stdout=subprocess.DEVNULL, stderr=subprocess.DEVNULL)
    here = uno.getComponentContext()
    resolver = here.ServiceManager.createInstanceWithContext(
        "com.sun.star.bridge.UnoUrlResolver", here)
    ends = time.monotonic() + STARTS
    while True:
        try:
            there = resolver.resolve(f"uno:pipe,name={pipe};urp;StarOffice.ComponentContext")
            break
        except NoConnectException:
            if time.monotonic() > ends:
                suite.kill()
                raise
            time.sleep(0.1)
    return suite, there.ServiceManager.createInstanceWithContext(
        "com.sun.star.frame.Desktop", there)


def given(**properties):
    return tuple(PropertyValue(Name=name, Value=value) for name, value in properties.items())


def opened(desktop, address: str):
    document = desktop.loadComponentFromURL(address, "_blank", 0, given(Hidden=True))
    if document is None:
        raise SystemExit("nothing was opened")
    return document


def save(desktop, address: str, text: str) -> None:
    document = opened(desktop, address)
    document.Text.insertString(document.Text.End, text, False)
    document.store()
    print(document.Text.String)
    document.close(True)


def look(desktop, address: str) -> None:
    document = opened(desktop, address)
    print(document.Text.String)
    print("read-only" if document.isReadonly() else "writable")
    document.close(True)


def hold(desktop, address: str) -> None:
    document = opened(desktop, address)
    print("open", flush=True)
    sys.stdin.read()
    document.close(True)


def make(desktop, address: str, text: str) -> None:
    document = desktop.loadComponentFromURL("private:factory/swriter", "_blank", 0,
                                            given(Hidden=True))
    document.Text.String = text
    document.storeAsURL(address, ())
    print(document.Text.String)
    document.close(True)


def main() -> None:
    profile, soffice, command, *arguments = sys.argv[1:]
    suite, desktop = start(profile, soffice)
    try:
        {"save": save, "open": look, "hold": hold, "make": make}[command](desktop, *arguments)
    except IOException as fault:
        print(f"refused: {fault.Message.splitlines()[0] if fault.Message else ''}")
        sys.exit(1)
    finally:
        try:
            desktop.terminate()
            suite.wait(30)
        except Exception:  # (the suite is gone either way)
            suite.kill()


main()
