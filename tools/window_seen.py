"""What the tests of the clerks' window have in common: an office's files, and how many tests passed."""
import collections, shutil

NAMES = ['Head', 'Ann', 'Ben & "Co" <b>', 'Cy']
MARKUP = '<script>document.title="taken"</script>'
CITY = f'''META
key;value
budget;1000.00
vote_type;approval
max_length;3
PROJECTS
project_id;cost;name
12;300.00;Library
7;200.00;Park & ride <img src=x onerror=alert(1)>
{MARKUP};100.00;Café "Zum Löwen"
b,c;50.00;An id with a comma
99;400.00;A very long name {'of a street ' * 20}
VOTES
voter_id;vote
old1;12,7
old2;7
{MARKUP};12
'''
# How many tests passed, and how many failed.
tally = collections.Counter()


def see(is_so, what, *more):
    """Notes whether something is as it has to be."""
    tally['passed' if is_so else 'failed'] += 1
    if not is_so:
        print(f'FAILED: {what}: {" ".join(str(it)[:400] for it in more)}', flush=True)


def new_folder(work, name):
    """A folder of an office: the city's file and the clerks."""
    folder = work / name
    folder.mkdir()
    (folder / 'city.pb').write_text(CITY)
    shutil.copy(work / 'clerks.json', folder)
    return folder
