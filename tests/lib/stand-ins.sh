# What stands on the machine of docs/typed for packages and programs that pages ask for, and its
# terminals.

# A package that pages get from Debian, with one program, which prints nothing.
stand_in_package() { # NAME PROGRAM
  mkdir -p "stand-ins/$1/DEBIAN" "stand-ins/$1/usr/bin" "$machine/root/packages"
  printf '%s\n' "Package: $1" 'Version: 1:99' 'Architecture: all' \
    'Maintainer: nobody <nobody@localhost>' 'Description: stand-in' >"stand-ins/$1/DEBIAN/control"
  { printf '#!/bin/sh\n' && cat; } >"stand-ins/$1/usr/bin/$1"
  chmod 755 "stand-ins/$1/usr/bin/$1"
  dpkg-deb --root-owner-group --build "stand-ins/$1" "$machine/root/packages/$1.deb" >said 2>&1 ||
    return
  {
    cat "stand-ins/$1/DEBIAN/control" &&
      printf '%s\n' "Filename: ./$1.deb" "Size: $(stat -c %s "$machine/root/packages/$1.deb")" \
        "SHA256: $(sha256sum <"$machine/root/packages/$1.deb" | cut -d ' ' -f 1)" ''
  } >>"$machine/root/packages/Packages"
}
# A program that the machine lacks.
stand_in() { # NAME
  [ -z "$(find "$machine"/{usr/,usr/local/,}{s,}bin -name "$1" -print -quit 2>/dev/null)" ] ||
    return 0
  { printf '#!/bin/sh\n' && cat; } >"$machine/usr/local/bin/$1"
  chmod 755 "$machine/usr/local/bin/$1"
}

# Terminals for apt-get, which has dpkg at one of its own; passwords that are asked for; a shell
# that tells of each command.
furnish_terminal() {
  printf '%s\n' 'APT::Sandbox::User "root";' \
    'DPkg::Path "/usr/local/sbin:/usr/local/bin:/usr/sbin:/usr/bin:/sbin:/bin";' \
    >"$machine/etc/apt/apt.conf.d/99rooms"
  rm -f "$machine"/etc/apt/sources.list.d/*
  echo 'deb [trusted=yes] file:/root/packages ./' >"$machine/etc/apt/sources.list"
  echo 'set enable-bracketed-paste off' >>"$machine/etc/inputrc"
  cat >"$machine/etc/bash.bashrc" <<'END'
PS1='[typed]$ ' PS2='> '
HISTCONTROL= HISTTIMEFORMAT=
unset HISTFILE
shopt -s cmdhist lithist
typed() { printf '%s\n%s\n~\n' "$1" "$(history 1)" >>/srv/typed; }
PS0='$(typed ">")' PROMPT_COMMAND='typed "=$?"'
END
  mkdir -p "$machine/srv"
  nsenter -t "$first" -m test -c "$machine/dev/pts/ptmx"
}
stand_in_package at <<'END' || fail 'what is typed' "no stand-in: $(cat said)"
{ cat; echo "at $*"; } >>/root/due
END
stand_in_package certbot <<'END' || fail 'what is typed' "no stand-in: $(cat said)"
mkdir -p /etc/letsencrypt/live/rooms.example
cp /etc/ssl/rooms.pem /etc/letsencrypt/live/rooms.example/fullchain.pem
cp /etc/ssl/private/rooms.key /etc/letsencrypt/live/rooms.example/privkey.pem
END
for name in apache2-bin ldap-utils python3-ldap libapache2-mod-auth-gssapi \
  libapache2-mod-auth-openidc rsync openssh-client bsd-mailx sudo; do
  stand_in_package "$name" </dev/null || fail 'what is typed' "no stand-in: $(cat said)"
done
# Of Apache and of a directory there is just enough that they are asked: nginx/directory,
# nginx/kerberos and nginx/session try what they do.
mkdir -p "$machine/usr/lib/apache2/modules"
echo >"$machine/usr/lib/apache2/modules/mod_authnz_ldap.so"
printf '#!/bin/sh\n[ "$1" = -t ] || exec sleep 3600\n' >"$machine/usr/sbin/apache2"
chmod 755 "$machine/usr/sbin/apache2"
# What Python asks a directory with, by the program below.
version_of_python=$(basename "$(readlink "$machine/usr/bin/python3")")
modules=$machine/usr/local/lib/$version_of_python/dist-packages
mkdir -p "$modules/ldap"
cp "$here/docs/stand_in_ldap.py" "$modules/ldap/__init__.py"
printf 'class SimplePagedResultsControl:\n    controlType = "x"\n    def __init__(self, *a, **b): pass\n' \
  >"$modules/ldap/controls.py"
printf 'def str2dn(text): return text\ndef dn2str(text): return text\n' \
  >"$modules/ldap/dn.py"
echo 'def escape_filter_chars(text): return text' \
  >"$modules/ldap/filter.py"
stand_in ldapsearch <<'END'
groups=ou=groups,dc=example,dc=net
case "$*" in
  *'(cn=staff)'*) printf 'dn: cn=staff,%s\n\n' "$groups" ;;
  *'(cn=Human Resources)'*) printf 'dn: cn=hr,%s\n\n' "$groups" ;;
  *'-b cn=sales,'*) printf 'dn: cn=sales,%s\n\n' "$groups" ;;
  *' member '*)
    for name in staff hr sales; do
      printf 'dn: cn=%s,%s\nmember: uid=alice,ou=people\n\n' "$name" "$groups"
    done
    ;;
  *) printf 'dn: uid=%s,ou=people\nuid: %s\n\n' alice alice bob bob ;;
esac
END
stand_in_package sqlite3 </dev/null || fail 'what is typed' "no stand-in: $(cat said)"
stand_in_package smbclient <<'END' || fail 'what is typed' "no stand-in: $(cat said)"
mkdir ' a ' && echo x >' a /b '
END
# A firewall, unless the machine has one: nginx/front tries what the rule does.
if [ ! -e "$machine/usr/sbin/nft" ]; then
  stand_in_package nftables </dev/null || fail 'what is typed' "no stand-in: $(cat said)"
fi
for name in nft update-ca-certificates journalctl; do stand_in "$name" </dev/null; done
mkdir -p "$machine/root/deploy" "$machine/usr/local/share/ca-certificates"
# At the top of a repository. What it does is tried by machine/install.
printf '#!/bin/sh\nexec rooms-admin setup "$@"\n' >"$machine/root/deploy/install"
chmod 755 "$machine/root/deploy/install"
