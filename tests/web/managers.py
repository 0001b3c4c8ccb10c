"""The play of two managers: whoever manages a folder above stands in nobody's way further down."""

ALL = 'rwanNxDtThHdcCoy'
KEEP, OWN = 'D:d:EVERYONE@:Dd', 'A:fi:OWNER@:d'
BARRED = 'Can manage, removes no folders here'


class Managers:
    def kept_folders(self):
        """Two folders into which somebody may add; carol manages the second."""
        for path in ('/fresh', '/projects', '/projects/bridge'):
            self.status_of('POST', f'/folder{path}')
        self.put_list('/fresh', 'list:a', 'A:fd:alice:Dd', KEEP, 'A:fdg:staff:rwaxtc', OWN)
        self.put_list('/projects/bridge', 'list:a', f'A:fd:carol:{ALL}', 'A:fd:alice:Dd', KEEP,
                      'A:fdg:staff:rwaxtc', OWN)
        self.put_list('/projects', 'list:a', 'A::carol:x')
        self.status_of('POST', '/folder/fresh/box')

    def removes(self, path, user):
        status, _ = self.status_of('DELETE', f'/object{path}', user=user)
        if status == 204:
            self.ask('POST', f'/folder{path}')
        return status

    def told_where_not(self):
        """A manager of all is let remove only where that is ticked: the panel names the places."""
        alice = self.alice
        self.kept_folders()
        self.panel('/')
        self.pick(alice, 'Helena Brandt', 'manage')
        offered = alice.until(lambda: [one for one in alice.texts('.outcome .tick')
                                       if 'kept in place' in one], 'the places')
        assert 'Also let Helena Brandt remove folders that others made at' in offered[0] \
            and '“/fresh”' in offered[0] and '“/projects/bridge”' in offered[0], offered
        self.share(alice)
        assert f'A:fd:helena:{ALL}' in self.own_of('/')
        assert self.own_of('/fresh') == ['A:fd:alice:Dd', KEEP, 'A:fdg:staff:rwaxtc', OWN]
        assert self.removes('/fresh/box', 'helena') == 403

    def panel_stays(self):
        """The panel of a folder below still takes names, and says what the manager can't."""
        alice = self.alice
        self.panel('/fresh')
        assert alice.all('.picker input'), alice.texts('.note-of')
        assert self.lines(alice)['Helena Brandt'] == BARRED, self.lines(alice)
        self.pick(alice, 'Zoe Adams', 'change')
        self.share(alice)
        assert 'A:fd:zoe:rwaxtc' in self.own_of('/fresh'), self.own_of('/fresh')
        assert self.removes('/fresh/box', 'zoe') == 403
        self.put_list('/fresh', 'list:a', 'A:fd:alice:Dd', KEEP, 'A:fdg:staff:rwaxtc', OWN)

    def another_manager(self):
        """Who manages the folder itself shares it, whoever manages the folder above."""
        carol = self.carol
        self.put_list('/projects', 'list:a', f'A:fd:zoe:{ALL}', 'A::carol:x')
        self.panel('/projects/bridge', carol)
        assert self.lines(carol)['Zoe Adams'] == BARRED, self.lines(carol)
        self.pick(carol, 'Bob Lindqvist', 'read')
        self.share(carol)
        assert 'A:fd:bob:rxtc' in self.own_of('/projects/bridge')

    def let_here(self):
        """One press lets the manager remove at this place too, after a question who gains."""
        alice = self.alice
        self.panel('/fresh')
        alice.press('Let Helena Brandt remove here too')
        alice.until(lambda: alice.all('dialog .outcome[aria-busy=false]'), 'the question')
        assert 'By the folder above, Helena Brandt has “Can manage”' in alice.texts('dialog p')[0]
        self.confirm(alice, 'Let them')
        alice.until(lambda: self.lines(alice)['Helena Brandt'] == 'Can manage', 'the line')
        assert self.own_of('/fresh') == ['A:fd:alice:Dd', 'A:fd:helena:Dd', KEEP,
                                         'A:fdg:staff:rwaxtc', OWN], self.own_of('/fresh')
        assert self.removes('/fresh/box', 'helena') == 204

    def ticked(self):
        """With the tick, the lines are written at each of the places."""
        alice = self.alice
        self.kept_folders()
        self.put_list('/', 'list:a', f'A:fd:alice:{ALL}', 'A::AUTHENTICATED@:xt')
        self.panel('/')
        self.pick(alice, 'Helena Brandt', 'manage')
        alice.until(lambda: any('kept in place' in one for one in alice.texts('.outcome .tick')),
                    'the tick')
        alice.script("""[...document.querySelectorAll('.outcome .tick')].find((one) =>
            one.textContent.includes('kept in place')).querySelector('input').click()""")
        self.share(alice)
        alice.until(lambda: 'A:fd:helena:Dd' in self.own_of('/fresh'), 'the line at /fresh')
        alice.until(lambda: 'A:fd:helena:Dd' in self.own_of('/projects/bridge'), 'the other one')
        assert self.removes('/fresh/box', 'helena') == 204
        self.put_list('/', 'list:a', f'A:fd:alice:{ALL}', 'A::AUTHENTICATED@:xt')

    PLAY = [('a manager of all is told where not', told_where_not),
            ('the panel below stays', panel_stays), ('who manages below', another_manager),
            ('one is let remove here', let_here), ('a tick for all places', ticked)]
