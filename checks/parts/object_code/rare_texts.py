"""Small texts that a search for new ways found, cut down as far as each still goes its own; and keys that are long and near to each
other, or many."""

RARE = [
    b'a=0.0000000222507385850',
    b'a=0.0000000000000000006',
    b'a=.e30834567890123456789',
    b'a=-16789012345678901234',
    b'a=1_000_000_000_000_000_000',
    b'a=0xffffffffffffffff',
    b'a=0o7777777777777777777777',
    b'a=0x1__0',
    b'a=[\t1,#\t\n2]\nb={\tc=1,#\t\n}',
    b'a=0.5e',
    b'a=1.e5',
    b'a=12345-',
    b'a=[0x5,79-',
    b'a=[0#\x0b',
    b'a={}\na=[3,nan]',
    b'a=2024-02-00',
    b'd=""\na=1971-12-31t07:32:00+07:00a',
    b'a=\'\xc3\xac\xf0\x9f\x98\x80\'\n[a.""]',
    b'a="""""""#\na.a=""',
    b'a=""""""\na.a={b=1}',
    b'a="""0\n\tlink \r\n"""\ng=\'\'\'\'\'\'',
    b'a="""76931348623157e308b"= 1\n+.f = 2\na = \\u09e9',
    b'[[""]]\n[[""]]',
    b'a=1\na.b=""',
    b'a={}\na.b=""',
    b'a=[]\na.b=[]',
    b'a.b=1\na.b.c=""',
    b'[a.b]\n[a]\nb=""',
    b'[a.b]\n[a]\nb.c=""',
    b'a=1\n[a.""]',
    b'a=""\na.b=1',
    b'a=""\n[[a.b]]',
    b'a=1\n[a.b.""]',
    b't=""\n[[2]]\n"".v',
    b'"".1=2\x10',
    b'""={}v',
    b"a=1\n''={g=1#\t\x12",
    b"a=[''#\n]\n''={#\t",
    b'a=[\'\',""]\n\'\'={#\x00',
    b"a=['',[]]\na={b=1}",
    b"[['']",
    b'[a.""]]',
    b'[""."".l]',
    b'[["".m."".l.9.l]',
    b'["".x."".v.l]\n[[b]]',
    b'[[c]]#\n[a."".k',
    b'[a.b]\n2=0\n[[c]]\n[a]\nb.d=[]',
    b'[a.b]\n[[c]]\n[a]\nb.a={}',
    b'[a.b]\n[[c]]\n[a]\nb.a={b=1}',
    b'[a.b]\n[[c]]\n[a]\nb.d="x"',
    b'[a.b]\n9=0.0\n[[c]]\n[a]\nb.d=""',
    b"[a.b]\n2=0.1\n[[ac]]\n[a]\nb.k=['',#\n[]]",
    b'[a.b]\n[a]\nb.k.""=1979-05-27 07:00',
    b'[[a.b]]\n[a]\nb.""=1',
    b'[[a.b]]\na={b=1}\n[a]\nb.d={}',
    b'[[a.b]]\na={b=1}\n[a]\nb.n={b=1}',
    b'[[a.b]]\n[[a.b]]\na={b=1}\n[[a.b]]\n[a]\n[a.b]\n',
    b'[[a.b]]\n[[a.b]]\na={b=1}\n[[a.b]]\n[a]\nb.l="q"',
    b'port=[]\n""=true\nport=[]',
    b'[[link]]\nvl=0\nskew_max_us=0\nreassembly_us=0',
    b'link=[{vl=0,skew_max_us=0,reassembly_us=0,port=[]},{vl=5,skew_max_us=1,reassembly_us=0,port=['
    b'{name="0",address="4.4.1.1",udp=0,max=1,kind="queuing",depth=4},{name="1",address="2.2.1.1",udp=1,kind="queuing",depth=4}]},'
    b'{vl=7,skew_max_us=0,reassembly_us=0,redundancy=true,t=[{n="",s="",p=6,x=0,d="",h=4},{n="",s="",p=0,x=1,d="",h=1}]}]',
    b'h=4\n[[link]]\nvl=7\nskew_max_us=0\nreassembly_us=5\nu=true\n[[t]]\na=""\ns=""\np=5\nd=""\nh=4\n[[k]]\nl=5\ns=1\ne=0\n[[t]]\na=""\n'
    b's=""\np=5\nx=1\nk=""\nr=2\n[[t]]\nn=""\nd=""\np=5\ni=""\ne=0\n[[link]]\nvl=1\nskew_max_us=1\nreassembly_us=5\n[[link]]\nvl=5\n'
    b'skew_max_us=1\nreassembly_us=5\n[[link.port]]\nn=""\nd=""\np=0\nk=4',
]
LENGTHS = (17, 18, 33, 49, 60, 97, 112, 113, 129, 160, 200)
FORMS = ("{} = 1\n", "[{}]\na = 1\n", "[[{}]]\na = 1\n", "{}.b = 1\n")
MANY = ("{} = [1, 2]\n", "[{}]\nx = 1\n", "[[{}]]\nx = 1\n", "{}.a = 1\n")


def keys_near(length):
    """A key, longer ones that it begins, and others that differ from it at one place."""
    key = "x" * length
    yield from (key, key + "a", key + "ab")
    yield from (key[:place] + other + key[place + 1:] for place in {0, 1, length // 2, 15, 16, 17, length - 1} for other in "ay")


def texts_of_long_keys():
    for length in LENGTHS:
        keys = list(dict.fromkeys(keys_near(length)))
        for order in (sorted(keys), sorted(keys, reverse=True), [*keys, keys[0]]):
            yield from ("".join(form.format(key) for key in order).encode() for form in FORMS)


def texts_of_many_keys():
    for form, many in (*((form, 1500) for form in MANY), ("{} = 1\n", 5000)):
        for order in (range(10000, 10000 + many), range(10000 + many, 10000, -1)):
            yield "".join(form.format(f"k{number}") for number in order).encode()


def texts_of_several_keys():
    """Enough for a tree of three levels, so few that each request may be refused."""
    yield from ("".join(f"k{number} = 1\n" for number in order).encode() for order in (range(100, 250), range(250, 100, -1)))
