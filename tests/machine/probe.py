"""For tests: what a program in the place of a service can do, a line for each thing that it can."""
import contextlib
import ctypes
import os
import signal
import socket
import stat
import subprocess

can = []


def tries(name, act):
    with contextlib.suppress(Exception):
        act()
        can.append(name)


def reads(path):
    with open(path, "rb") as source:
        assert source.read(1)


def listed(path):
    assert os.listdir(path)


def writes(path):
    number = os.open(path, os.O_WRONLY | os.O_CREAT | os.O_EXCL, 0o600)
    os.close(number)
    os.unlink(path)


def reaches(path):
    with socket.socket(socket.AF_UNIX) as asking:
        asking.settimeout(3)
        asking.connect(path)


def calls(*words):
    subprocess.run(words, check=True, capture_output=True, timeout=20)


# Where somebody may be asked.
PLACES = ("/run/rooms/office/socket", "/run/rooms/invoices/socket",
          "/run/rooms-server/office/socket", "/run/rooms-server/invoices/socket",
          "/run/rooms-front/passwords.sock", "/run/rooms-own-password/socket",
          "/run/rooms-nights/socket", "/run/rooms-earlier/socket", "/run/rooms-picture/socket",
          "/run/rooms-texts/socket", "/run/rooms-extract/socket", "/run/rooms-scan/socket",
          "/run/rooms-would/socket", "/run/dbus/system_bus_socket", "/run/systemd/private")


def reaches_another():
    """Of /run: what answers there may ask other machines."""
    for above, _, names in os.walk("/run"):
        for path in (os.path.join(above, name) for name in names):
            # (Who waits for a server listens at a place of its own.)
            if path in PLACES or path.startswith("/run/rooms-wait/") or not stat.S_ISSOCK(
                    os.lstat(path).st_mode):
                continue
            for kind in (socket.SOCK_STREAM, socket.SOCK_DGRAM, socket.SOCK_SEQPACKET):
                with contextlib.suppress(OSError), socket.socket(socket.AF_UNIX, kind) as asking:
                    asking.settimeout(3)
                    asking.connect(path)
                    return
    raise OSError


def asks_for_a_key():
    """For what nobody has, the kernel starts a program of root's."""
    ctypes.set_errno(0)
    called = ctypes.CDLL(None, use_errno=True).syscall
    if called(249, b"user", b"rooms:probe", None, 0) < 0 and ctypes.get_errno() == 1:
        raise OSError


def goes_out():
    socket.create_connection(("127.0.0.1", 80), 3).close()


def sees_others():
    others = [one for one in os.listdir("/proc") if one.isdigit() and int(one) != os.getpid()]
    assert any(os.stat(f"/proc/{one}").st_uid != os.getuid() for one in others)


def owns():
    os.chown("/var/tmp/probe", 0, 0)


def on_disk():
    for path in ("/etc/shadow", "/var/lib/rooms-passwords/rooms.htpasswd", "/etc/rooms/office.conf",
                 "/etc/rooms/passwords.key", "/etc/ssl/private/probe.key", "/proc/1/environ",
                 "/root/rooms.deb", "/var/log/nginx/access.log", "/etc/nginx/nginx.conf"):
        tries(f"read {path}", lambda path=path: reads(path))
    for path in ("/var/lib/rooms", "/var/backups/rooms", "/var/lib/rooms-web", "/run/rooms/office",
                 "/run/rooms-front", "/run/rooms-front/remembered", "/var/lib/rooms-passwords",
                 "/var/cache/rooms-nights", "/var/log/nginx", "/var/cache/rooms-texts/office",
                 "/var/cache/rooms-texts-copies/office"):
        tries(f"list {path}", lambda path=path: listed(path))
    for path in ("/etc", "/etc/nginx", "/etc/rooms", "/usr", "/run", "/run/rooms-full",
                 "/run/rooms/invoices", "/run/rooms-server/office", "/run/lock", "/var/lib",
                 "/var/lib/rooms", "/var/lib/rooms-web", "/var/lib/rooms-passwords", "/var/backups",
                 "/var/cache/rooms-nights", "/run/rooms-nights", "/var/tmp", "/dev/shm",
                 "/var/lib/rooms-told", "/var/lib/rooms-changes", "/var/lib/rooms-changes/office",
                 "/var/lib/rooms-changes/invoices", "/var/cache/rooms-texts/office"):
        tries(f"write {path}", lambda path=path: writes(f"{path}/probe"))
    tries("make a folder", lambda: os.mkdir("/var/tmp/folder"))
    # Where nginx opens what somebody else may put there.
    link = "/var/lib/rooms-changes/office/link"
    tries("have nginx write elsewhere", lambda: os.symlink("/var/log/nginx/access.log", link))
    tries("have nginx wait", lambda: os.mkfifo(f"{link}.pipe"))


def main():
    on_disk()
    for path in PLACES:
        tries(f"ask {path}", lambda path=path: reaches(path))
    tries("ask others at /run", reaches_another)
    tries("ask 127.0.0.1:80", goes_out)
    with contextlib.suppress(OSError):
        os.close(os.open("/var/tmp/probe", os.O_CREAT | os.O_WRONLY, 0o600))
    tries("ask for a key", asks_for_a_key)
    tries("give a file to root", owns)
    tries("make a file that runs as its owner", lambda: os.chmod("/var/tmp/probe", 0o4755))
    tries("mount", lambda: calls("mount", "-t", "tmpfs", "x", "/mnt"))
    tries("become root", lambda: os.setuid(0))
    tries("a namespace", lambda: calls("unshare", "-U", "true"))
    tries("signal the first process", lambda: os.kill(1, signal.SIGCONT))
    tries("trace", lambda: calls("dmesg"))
    tries("see processes of others", sees_others)
    print("\n".join(can), flush=True)


main()
