"""Pages of a result that were changed on purpose, each with what recount.html has to name. `try_recount` compares them.

The election is worked by hand. Four voters share 100.00, at first 25.00 each. a costs 30.00, and v1 and v2 pay 15.00. c costs
20.00, which v1 has left from a share of 35.00 on. e costs 20.00, which v4 pays. b costs 60.00: at a share of 37.00 v2 has 22.00
left and v3 37.00, 1.00 too little. At 38.00 they have 61.00, but then a, b, c and e cost 130.00. So the share is 37.00, after 12
raises, and 30.00 are left: b does not fit, and d, which costs 25.00, is added. v3 has no winner. By most votes first a and b win."""

import pathlib, re

FILE = '''META
key;value
budget;100
vote_type;approval
currency;zł
PROJECTS
project_id;cost;name;category
a;30;Library;parks
b;60;Park;parks
c;20;Well;
d;25;Tree;sport
e;20;Clock;sport
f;5;Bench;health
VOTES
voter_id;vote
v1;a,c
v2;a,b,d
v3;b
v4;e
'''
OPTIONS = ['--completion', 'add1u']
# The first row of the winners, and where the table of the winners begins and ends.
ROW, ROW_END = "<tr role='row' id='p-0' data-project='a'>", '</tr>\n'
TABLE, TABLE_END = "<table class='wide' role='table'>\n<caption role='caption'>In order of election", '</table>'
# A row that shows another winner, and marks nothing.
FALSE_ROW = "<tr role='row'><th role='rowheader' scope='row'><bdi dir='auto'>Palace</bdi></th><td role='cell' class='n'>30 zł</td></tr>\n"
FALSE_TABLE = f"<table class='wide' role='table'><tbody role='rowgroup'>{FALSE_ROW}</tbody></table>"

# What stands around the true table, beside which a false one stands, and the foreign part.
HIDING = [
    ('<details>', '</details>', '<details> within <section> under “The winners”'),
    ('<noscript>', '</noscript>', '<noscript> within <section>'),
    ('<template>', '</template>', '<template> within <section>'),
    ('<dialog>', '</dialog>', '<dialog> within <section>'),
    ('<div hidden>', '</div>', '<div> within <section>'),
    ('<div style="display: none">', '</div>', '<div> within <section>'),
    ("<svg class='bar'><foreignObject>", '</foreignObject></svg>', '<svg> within <section>'),
    ("<div class='budget'>", '</div>', '<div> within <section>'),
]
# Lists of projects: those that only one rule elects, and the last of these.
ONLY, ONLY_TREE = ('the projects that only one of both rules elects',
                   "<li><a href='#p-3'><span class='id' dir='auto'>d</span> <bdi dir='auto'>Tree</bdi></a> (<data value='25.00'>25 zł</data>)</li>")
# Those that one raise more elects besides the winners, up to where the first link leads.
THEN, THEN_PARK = 'the projects that one raise more elects, or no more', "with that raise:\n<ul>\n<li><a href='#p-1"
# What stands in place of the beginning of a tag, and the foreign part.
STARTS = [
    ("<section class='won' aria-labelledby='winners'>", "<section class='won' aria-labelledby='winners' hidden>", '<section> with the attribute hidden'),
    (ROW, ROW.replace('>', ' style="display: none">'), '<tr> with the attribute style'),
    (ROW, ROW.replace('>', ' inert>'), '<tr> with the attribute inert'),
    (ROW, FALSE_ROW + ROW, 'a row without marked figures under “The winners”: “Palace30 zł”'),
    ('</head>', '<style>[data-project] { display: none }</style></head>', 'a second <style>'),
    ('</style>', "h1::after { content: ' Park won' }\n</style>", 'a <style> that is not the one of this version’s pages'),
    ('</title>', ': Park won</title>', 'a <title> that is not the heading'), ('<nav', "<p class='lead'>Park won.</p>\n<nav", '<p> without marked figures'),
    ("<li><a href='#winners'>The winners</a></li>", "<li><a href='#winners'>Palace has won</a></li>",
     '<a> that leads elsewhere than its text says under “Participatory budgeting”: “Palace has won”'),
    (THEN_PARK, THEN_PARK.replace('p-1', 'p-3'), '<a> that leads elsewhere than its text says under “How it was counted”: “b Park”'),
    ("<li><a href='#winners'>", "<li><a href='https://example.org/winners'>", '<a> that leads elsewhere than its text says under “Participatory budgeting”: “The winners”'),
    ('</main>', '<script>document.body.textContent = "Palace"</script></main>', '<script> within <main>'),
    ('</main>', '<p style="position: fixed">Palace</p></main>', '<p> within <main>'),
    ('</main>', '<img name="querySelectorAll"><img name="documentElement"></main>', '<img> within <main>'),
    ('<main>', '<form><input name="closest"><input name="getAttribute"><input name="parentElement"></form><main>', '<form> within <body>'),
    ('</head>', '<meta http-equiv="refresh" content="0;url=other.html"></head>', '<meta> that acts on the page'),
    ("<link rel='icon' href='data:,'>", "<link rel='stylesheet' href='other.css'>", '<link> to another file'),
    ("data-project='b'><th role='rowheader' scope='row'><span class='id' dir='auto'>", "data-project='b'><th role='rowheader' scope='row'><span class='id' dir='rtl'>",
     '<span> with a direction of its own'),
    ("data-label='Left short when raising ended'>", "data-label='Left short 9'>", 'a cell with the label “Left short 9”, which no column has'),
    ("viewBox='0 0 10000 1'", "viewBox='0 0 3000 1'", 'a bar with another scale'),
    ("<rect class='winners' x='0' y='29' width='74'", "<rect class='winners' x='0' y='29' width='34'", 'another picture of shares'),
    ("<span style='--from:0;--wide:3000'", "<span style='--from:0;--wide:3000;display:none'", '<span> with a style of its own'),
    # A link that goes to another element than the row of its project.
    ("<thead role='rowgroup'><tr role='row'>", "<thead role='rowgroup'><tr role='row' id='p-3'>", '<tr> with the id “p-3”, which is no project\'s row'),
    ("<thead role='rowgroup'><tr role='row'>", "<thead role='rowgroup'><tr role='row' id='p-3'>", 'a second <tr> with the id “p-3”'),
    ("<tr role='row'><th role='rowheader' scope='row'><bdi dir='auto'>parks", "<tr role='row' id='p-9'><th role='rowheader' scope='row'><bdi dir='auto'>parks",
     '<tr> with the id “p-9”, which is no project\'s row'),
    ("<h2 id='budget'>", "<h2 id='p-3'>", '<h2> with the id “p-3”, which is no project\'s row'),
    ("<h2 id='others'>", "<h2 id='winners'>", 'a second <h2> with the id “winners”'),
]
STARTS += [(text, link + text, '<a> that is no link to the files or to a recount') for text, link in [
    # A link in a sentence of another section, and in the last one an address that the program refuses, and a second link.
    ('These projects win by this count', "<a href='https://example.org/'>The true result</a> "),
    ('These projects win by this count', "<a href='#p-3'>Tree has won</a> "),
    ('The name of this rule is', "<a href='javascript:alert(1)'>here</a> "),
    ('The name of this rule is', "<a href='data:,x'>here</a> "),
    ('The name of this rule is', "<a href='a.html'>here</a> <a href='b.html'>there</a> "),
]]
# Links to sections.
WINNERS, ADDED, OTHERS = ["<li><a href='#winners'>The winners</a></li>\n", "<li><a href='#added'>Added by votes</a></li>\n",
                          "<li><a href='#others'>The other projects</a></li>\n"]
BEFORE = '#budget Where the budget goes, #winners The winners, #added Added by votes'
# A text of the page, what stands in its place, and what is named, with what the page has and what the files give.
FIGURES = [
    ("value='95.00'>95", "value='96.00'>96", 'what is spent|96.00|95.00'),
    ("class='won' value='4'>4", "class='won' value='15'>15", 'the number of winners|15|4'),
    ("class='projects' value='6'>6", "class='projects' value='7'>7", 'the number of projects|7|6'),
    ("class='voters' value='4'>4", "class='voters' value='5'>5", 'the number of voters|5|4'),
    ("class='left' value='5.00'>5", "class='left' value='6.00'>6", 'what is left|6.00|5.00'),
    ("class='surplus' value='0.00'>0.00", "class='surplus' value='0.01'>0.01", 'the surplus|0.01|0.00'),
    ("class='share' value='37.00'>37", "class='share' value='38.00'>38", 'the share of each voter|38.00|37.00'),
    ("class='opening_share' value='25.00'>25", "class='opening_share' value='26.00'>26", 'the opening share|26.00|25.00'),
    ('<code>ES/votes/add1u', '<code>ES/cost/add1u', 'the name of the rule|ES/cost/add1u/hundredths/step=1.00/ties=file|ES/votes/add1u/hundredths/step=1.00/ties=file'),
    ("class='raises' value='12'>12", "class='raises' value='13'>13", 'the raises of the share|13|12'),
    ("class='step' value='1.00'>1", "class='step' value='2.00'>2", 'each raise|2.00|1.00'),
    ("<data value='1.00'>1", "<data value='2.00'>2", 'each raise|2.00|1.00'),
    ("class='limit' value='1000000'>1,000,000", "class='limit' value='20'>20", 'the limit of raises|20|1000000'),
    ("class='next_share' value='38.00'>38", "class='next_share' value='39.00'>39", 'the share after one raise more|39.00|38.00'),
    ("class='next_cost' value='130.00'>130", "class='next_cost' value='131.00'>131", 'what one raise more would cost|131.00|130.00'),
    ("<data value='60.00'>60", "<data value='61.00'>61", f'{ONLY}|#p-1 b Park 61.00|#p-1 b Park 60.00'),
    (THEN_PARK, THEN_PARK.replace('p-1', 'p-3'), f'{THEN}|#p-3 b Park 60.00|#p-1 b Park 60.00'),
    (THEN_PARK, THEN_PARK.replace('<li>', '<li>Palace</li>\n<li>'), f'{THEN}|Palace (no link), #p-1 b Park|#p-1 b Park'),
    ("class='round' value='1'>1", "class='round' value='2'>2", 'the round of Library (id a)|2|1'),
    ("class='price' value='15.00'>15", "class='price' value='14.00'>14", 'the price of Library (id a)|14.00|15.00'),
    ("class='in_full' value='2'>2", "class='in_full' value='1'>1", 'how many paid in full of Library (id a)|1|2'),
    ("class='added' value='1'>1", "class='added' value='2'>2", 'the number of Tree (id d)|2|1'),
    ("class='cost' value='25.00'>25", "class='cost' value='24.00'>24", 'the cost of Tree (id d)|24.00|25.00'),
    ("class='cost' value='60.00'>60", "class='cost' value='65.00'>65", 'the cost of Park (id b)|65.00|60.00'),
    ("class='votes' value='0'>0", "class='votes' value='3'>3", 'the votes of Bench (id f)|3|0'),
    ("class='left' value='59.00'>59", "class='left' value='58.00'>58", 'what is left of Park (id b)|58.00|59.00'),
    ("class='missing' value='1.00'>1", "class='missing' value='9.00'>9", 'what is missing of Park (id b)|9.00|1.00'),
    ("class='category_won' value='2'>2", "class='category_won' value='1'>1", 'the winners of the category sport|1|2'),
    ("class='category_cost' value='45.00'>45", "class='category_cost' value='25.00'>25", 'the cost of the winners of the category sport|25.00|45.00'),
    ("<data value='0'>0</data><svg class='bar' viewBox='0 0 10000 1' preserveAspectRatio='none' aria-hidden='true'><rect width='2500' height='1'/></svg></th><td role='cell' class='n'><data value='1'>1",
     "<data value='0'>0</data><svg class='bar' viewBox='0 0 10000 1' preserveAspectRatio='none' aria-hidden='true'><rect width='2500' height='1'/></svg></th><td role='cell' class='n'><data value='0'>0",
     'the voters with 0 winners|0|1'),
    ("class='rule_projects' value='2'>2", "class='rule_projects' value='1'>1", 'the winners by most votes|1|2'),
    ("class='rule_cost' value='90.00'>90", "class='rule_cost' value='80.00'>80", 'the cost of the winners by most votes|80.00|90.00'),
    ("<li><a href='#p-1'>", "<li><a href='#p-0'>", f'{ONLY}|#p-0 b Park 60.00|#p-1 b Park 60.00'),
    (f'{ONLY_TREE}\n', '', f'{ONLY}|#p-2 c Well 20.00, #p-4 e Clock 20.00|#p-4 e Clock 20.00, #p-3 d Tree 25.00'),
    (ONLY_TREE, f'{ONLY_TREE}\n<li>Palace</li>', f'{ONLY}|#p-3 d Tree 25.00, Palace|#p-3 d Tree 25.00'),
    (ONLY_TREE, f"{ONLY_TREE}\n<li><bdi dir='auto'>Palace</bdi></li>", f'{ONLY}|#p-3 d Tree 25.00, Palace|#p-3 d Tree 25.00'),
    (ONLY_TREE, ONLY_TREE.replace('<a', 'Palace, <a'), f'{ONLY}|Palace, d Tree (25 zł)|#p-3 d Tree 25.00'),
    (ONLY_TREE, ONLY_TREE.replace('</a>', '</a> and Palace'), f'{ONLY}|d Tree and Palace (25 zł)|#p-3 d Tree 25.00'),
    (ONLY_TREE, '<li>#p-3 d Tree 25.00</li>', f'{ONLY}|#p-3 d Tree 25.00 (no link)|#p-3 d Tree 25.00'),
    (ONLY_TREE, f'{ONLY_TREE}\nPalace', f'{ONLY}|e Clock (20 zł) d Tree (25 zł) Palace|#p-3 d Tree 25.00'),
    (OTHERS, '', f'the contents|{BEFORE}, #categories|{BEFORE}, #others The other projects'),
    (OTHERS, '<li>Palace has won</li>\n', f'the contents|{BEFORE}, Palace has won (no link), #categories|{BEFORE}, #others The other projects'),
    (OTHERS, '<li><bdi>Palace has won</bdi></li>\n', f'the contents|{BEFORE}, Palace has won (no link), #categories|{BEFORE}, #others The other projects'),
    (OTHERS, '<li>#others The other projects</li>\n', f'the contents|#others The other projects (no link)|{BEFORE}, #others The other projects'),
    (OTHERS, OTHERS + OTHERS, f'the contents|#others The other projects, #others The other projects|{BEFORE}, #others The other projects'),
    (WINNERS + ADDED, ADDED + WINNERS, f'the contents|#added Added by votes, #winners The winners|{BEFORE}, #others The other projects'),
    (OTHERS, f'{OTHERS}Palace has won\n', f'the contents|The other projects Palace has won The money|{BEFORE}, #others The other projects'),
    ('</ul>\n</nav>', '</ul>\nPalace has won</nav>', f'the contents|Check it yourself Palace has won|{BEFORE}, #others The other projects'),
    ("class='without' value='1'>1", "class='without' value='2'>2", 'the voters without a winner by this count|2|1'),
    ("class='more_choices' value='2'>2", "class='more_choices' value='0'>0", 'the voters with more winners by this count|0|2'),
    ("class='share' value='37.00'>", "value='37.00'>", 'the share of each voter||37.00'),
    ('--completion add1u', '--measure cost', 'the options of the count|measure cost, completion add1,|completion add1u'),
    ("<data class='votes' value='2'>2", "<data class='constructor' value='2'>2", 'the number constructor of Library (id a)|2|'),
    ("<data class='votes' value='2'>2", "<data class='__proto__' value='2'>2", 'the votes of Library (id a)||2'),
    ("<tr role='row' id='p-0'", "<tr role='row' id='p-9'", 'the name for links of the row of Library (id a)|p-9|p-0'),
    ("data-project='a'", "data-project='constructor'", 'a row of a project with the id constructor|constructor|'),
    ("data-project='a'", "data-project='toString'", 'the row of Library (id a)||a'),
]
# The same of what is shown, where no value differs.
TEXTS = [
    (">100 zł</data>", '>９100 zł</data>', 'the budget, as it is shown|９100 zł|100.00'),
    (">60 zł</data>", '>９60 zł</data>', 'the cost of Park (id b), as it is shown|９60 zł|60.00'),
    (">1.00 zł short</data>", '>٩1.00 zł short</data>', 'what is missing of Park (id b), as it is shown|٩1.00 zł short|1.00'),
    (">4</data>", '></data>', 'as it is shown||4'),
    (">20 zł</data>", '>20 €</data>', 'the cost of Well (id c), as it is shown|20 €|20.00'),
    (">20 zł</data>", '><s>20 zł</s></data>', 'the cost of Well (id c), as it is shown|20 zł|20.00'),
    (">2</data>", '>2 or more</data>', 'as it is shown|2 or more|2'),
    (">0 zł</data>", '></data>', 'the cost of the winners of the category health, as it is shown||0.00'),
    ("<td role='cell' class='n' data-label='Cost'><data class='cost' value='60", "<td role='cell' class='n' data-label='Cost'>9<data class='cost' value='60",
     'the cost of Park (id b), with what stands beside it|960 zł|60.00'),
    (" on <data class='projects' value='6'>", " on 9<data class='projects' value='6'>", 'the number of projects, with what stands beside it|96 projects|6'),
    ("95 zł</data> in all", "95 zł</data>,000 in all", 'what is spent, with what stands beside it|95 zł,000|95.00'),
    (">1,000,000</data>", '>1,000,00</data>', 'the limit of raises, as it is shown|1,000,00|1000000'),
    (">60 zł</data>", '>\u202e60 zł</data>', 'the cost of Park (id b), with what stands beside it|60|60.00'),
    ("value='45.00'>45 zł</data></td>", "value='45.00'>45 zł</data></td><td role='cell' class='n'>9</td>", 'a cell without a figure|9|'),
    ("<rect width='9833'", "<rect width='10000'", 'the bar of Park (id b)|10000|9833'),
    ("<rect width='4500'", "<rect width='9500'", 'the bar of the category sport|9500|4500'),
    ('--wide:3000', '--wide:9000', 'the picture of the budget|--wide:9000|--wide:3000'),
    ('>Library</bdi><svg', '>Palace</bdi><svg', 'the name of the project with the id a|Palace|Library'),
    ("dir='auto'>parks</bdi></td>", "dir='auto'>sport</bdi></td>", 'the category of Library (id a)|sport|parks'),
    ("dir='auto'>sport</bdi><svg", "dir='auto'>parks</bdi><svg", 'the name of a category|parks|sport'),
]


# The picture of shares, where it begins and ends, and where it has no line of shares that have grown.
PICTURE, PICTURE_END = "<svg class='shares'", '</svg>\n'
UNRAISED = re.compile(r"<rect class='(?:share|raise)' x='\d+' y='15' .*\n")
GROWN = 'of shares that have grown'

# An election with a tie of filling up, and with a project that one raise more elects in place of another, which
# crates/pb_app/cases/page.txt works by hand; and what of its page is changed, as above.
TWINS = pathlib.Path(__file__).resolve().parent.parent / 'crates' / 'pb_app' / 'cases' / 'data' / 'twins.pb'
TWINS_OPTIONS = ['--completion', 'add1u', '--step', '2500', '--compare']
TIE, TIED = 'a tie of filling up', 'Park (id d) before Park (id e)'
PARK = "<a href='#p-3'><span class='id' dir='auto'>d</span> <bdi dir='auto'>Park</bdi></a> was"
NO_MORE = "would not with that raise:\n<ul>\n<li><a href='#p-1'><span class='id' dir='auto'>b</span> <bdi dir='auto'>Fountain</bdi></a> (<data value='30.00'>"
OF_TWINS = [
    (PARK, PARK.replace('p-3', 'p-2'), f'{TIE}|d Park was|{TIED}'),
    (PARK, PARK.replace('p-3', 'p-2'), '<a> that leads elsewhere than its text says under “How it was counted”: “d Park”'),
    (PARK, PARK.replace('Park', 'Pool'), '<a> that leads elsewhere than its text says under “How it was counted”: “d Pool”'),
    (PARK, f'{PARK}</li>\n<li>{PARK}', f'{TIE}|d Park was|{TIED}'),
    ("<ul class='ties'>", "<ul class='ties'>\n<li>Palace</li>", f'{TIE}|Palace|{TIED}'),
    ("<ul class='ties'>", "<ul class='ties'>\n<li><data value='1.00'>1</data> Palace won by a tie</li>", f'{TIE}|1 Palace won by a tie|{TIED}'),
    ("<ul class='ties'>", "<ul class='ties'>\n<li><data value='1.00'>1</data> Palace won by a tie</li>", 'a figure of a tie|1.00|'),
    (PARK, PARK.replace('p-3', 'p-4').replace('>d<', '>e<'), f'{TIE}|e Park was|{TIED}'),
    (NO_MORE, NO_MORE.replace('p-1', 'p-0'), f'{THEN}|#p-0 b Fountain 30.00|#p-1 b Fountain 30.00'),
    (NO_MORE, NO_MORE.replace("value='30", "value='31"), f'{THEN}|#p-1 b Fountain 31.00|#p-1 b Fountain 30.00'),
    (NO_MORE, NO_MORE.replace('<li>', '<li>Palace</li>\n<li>'), f'{THEN}|Palace (no link), #p-1 b Fountain|#p-1 b Fountain 30.00'),
]

# An election with ties of rounds, some with a project that is elected later, and what of its page is changed, as above.
EVEN, EVEN_OPTIONS = TWINS.with_name('even.pb'), ['--plain', '--measure', 'cost']
SWINGS = "was elected. <a href='#p-2'><span class='id' dir='auto'>c</span> <bdi dir='auto'>Swings</bdi></a> had"
LATER = 'round 1: Bench (id a) before Swings (id c)'
OF_EVEN = [
    (SWINGS, SWINGS.replace('p-2', 'p-4').replace('>c<', '>e<').replace('Swings', 'Well'), f'a tie|e Well|{LATER}'),
    ("'2'>2</data>: <a href='#p-2'", "'1'>1</data>: <a href='#p-2'", 'a tie|Round 1: c Swings was|round 2: Swings (id c)'),
    ("Round <data class='round' value='2'>2</data>: <a href='#p-2'", "Then: <a href='#p-2'", 'a tie|Then: c Swings was|round 2: Swings (id c)'),
    ("<ul class='ties'>", "<ul class='ties'>\n<li>Palace</li>", 'a tie|Palace|round 1: Bench (id a)'),
]

# How many pages these make.
COUNT = len(HIDING) + len(STARTS) + len(FIGURES) + len(TEXTS) + len(OF_TWINS) + len(OF_EVEN) + 20

# By most votes v2 and v3 have projects that cost more than by shares (crates/pb_app/cases/decided.txt), so that they apply.
DECIDED_FILE = (pathlib.Path(__file__).resolve().parent.parent / 'crates/pb_app/cases/data/filling.pb').read_bytes()
DECIDED_OPTIONS = ['--completion', 'add1u', '--decide', 'worth']
NAMES = 'ES/votes/add1u/hundredths/step=1.00/ties=file/decide=worth, MV/ties=file, MV/ties=file, MV/ties=file'
# Changes of its page, each with what has to be named of it.
OF_DECIDED = [
    ("value='1'>1</data> by the first rule", "value='3'>3</data> by the first rule", 'the voters with more by the first rule|3|1'),
    ("value='2'>2</data> by the other one", "value='2'>0</data> by the other one", 'the voters with more by the other rule, as it is shown|0|2'),
    ("<data class='decided_other' value='2'>2</data>", '2', 'the voters with more by the other rule||2'),
    ('/decide=worth</code>', '/decide=choices</code>', f'the names of the rules|decide=choices|{NAMES}'),
    ('So <code>MV/ties=file</code>', 'So <code>ES/votes/add1u/hundredths/step=1.00/ties=file</code>', f'the names of the rules|MV/ties=file, ES/votes|{NAMES}'),
    (' --decide worth --beside MV/ties=file', '', 'the options of the count|raises|decided by worth beside MV/ties=file'),
    (' --decide worth --beside', ' --decide choices --beside', 'the options of the count|decided by choices|decided by worth'),
    ("<h2 id='decided'>Which rule applies</h2>", "<h2 id='decided'>Which rule applies</h2><p>The other rule never applies.</p><div>x</div>", '<div> within <section>'),
]


def between(text, opening, closing):
    """A part of a text from the first opening to the next closing, with both."""
    start = text.index(opening)
    return text[start:text.index(closing, start) + len(closing)]


def changed_pages(page, other):
    """Each change of the true page with what has to be named of it; `other` is the page of another election."""
    table, row = between(page, TABLE, TABLE_END), between(page, ROW, ROW_END)
    for opening, closing, told in HIDING:
        yield page.replace(table, f'{opening}{table}{closing}{FALSE_TABLE}'), told
    for old, new, told in [*STARTS, *FIGURES, *TEXTS]:
        # The page keeps an amount and its currency in one line.
        old, new = (text.replace(' zł', '\u00a0zł') for text in (old, new))
        assert old in page, old
        yield page.replace(old, new, 1), told
    marked = table.replace('Library', 'Palace').replace("data-project='a'", "data-project='x'").replace("class='round' value='1'>1", "class='round' value='4'>4")
    yield page.replace(table, f'<details>{table}</details>{marked}'), 'a row of a project with the id x|x|'
    yield page.replace(table, f'{marked}<noscript>{table}</noscript>'), 'a second row of Well (id c)|c|'
    last = between(page, "<tr role='row' id='p-5' data-project='f'>", ROW_END)
    next_row = between(page, "<tr role='row' id='p-2' data-project='c'>", ROW_END)
    digest = between(page, '<dd><code>', '</code></dd>')
    yield page.replace(row, ''), 'the row of Library (id a)||a'
    yield page.replace(last, ''), 'the row of Bench (id f)||f'
    yield page.replace(row, row + row), 'a second row of Library (id a)|a|'
    yield page.replace(row, '').replace(next_row, next_row + row), 'the order of the winners|Well (id c), Library (id a)|Library (id a), Well (id c)'
    yield page.replace(digest, f'<dd><code>{"0" * 64}</code></dd>'), f'the digest of the file|{"0" * 64}|{digest[10:74]}'
    yield page.replace(digest, digest + digest), f'the digest of the journal|{digest[10:74]}|'
    yield page.replace(digest, f'<dd><code>{digest[10:18]}</code></dd>'), f'the digest of the file|{digest[10:18]}|{digest[10:74]}'
    yield other, 'the budget|120.00|100.00'
    two_signs = page.replace("value='12'>12<", "value='1200'>1,200<").replace('>1,000,000<', '>1.000.000<')
    yield two_signs, 'the limit of raises, as it is shown|1.000.000|1000000'
    yield from changed_parts(page)


def changed_once(page, changes):
    for old, new, told in changes:
        assert old in page, old
        yield page.replace(old, new, 1), told


def changed_even(page):
    """Each change of the page with ties of rounds, with what has to be named."""
    yield from changed_once(page, OF_EVEN)
    row = next(it for it in page.split('\n') if SWINGS in it)
    yield page.replace(row + '\n', ''), 'a tie||round 2: Swings (id c)'


def changed_twins(page):
    """Each change of the page of the other election, with what has to be named."""
    yield from changed_once(page, OF_TWINS)
    lists = between(page, "<li>Ties that", '</ul>\n</li>\n')
    yield page.replace(lists, ''), f'{TIE}||{TIED}'


def unraised(picture):
    """The picture of shares that nothing raises, made of the one of shares that have grown."""
    return UNRAISED.sub('', picture).replace("y='29' width='74'", "y='15' width='62'").replace("120 40'", "120 26'").replace("height='40'", "height='26'")


def changed_parts(page):
    """Each change of the picture of shares and of the contents as a whole, with what has to be named."""
    picture, contents = between(page, PICTURE, PICTURE_END), between(page, '<nav', '</nav>\n')
    figure, told = between(page, f'<figure>\n{PICTURE}', '</figure>\n'), 'the picture of shares|'
    yield page.replace(picture, unraised(picture)), f'{told}of opening shares|{GROWN}'
    yield page.replace(picture, ''), f'{told}|{GROWN}'
    yield page.replace(picture, picture + picture), f'{told}{GROWN}; {GROWN}|{GROWN}'
    yield page.replace(picture, '').replace("<div class='budget'", picture + "<div class='budget'"), f'{told}{GROWN}, in another section|{GROWN}'
    yield page.replace(figure, '').replace("<h2 id='added'>", figure + "<h2 id='added'>"), f'{told}{GROWN}, in another section|{GROWN}'
    yield page.replace(contents, ''), f'the contents||{BEFORE}, #others The other projects'
    yield page.replace(contents, contents + contents), f'the contents|#check Check it yourself; #budget|{BEFORE}, #others The other projects'


def is_told(told, found):
    """Whether what has to be named is among what was found: as a foreign part, or as a difference with both sides."""
    if '|' not in told:
        return any(told in part for part in found['foreign'])
    place, *sides = told.split('|')
    def shows(side, fields):
        return side in fields[0] if side and fields else not side and not (fields and fields[0])
    return any(it['place'].endswith(place) and all(map(shows, sides, (it['its'], it['mine']))) for it in found['differences'])
