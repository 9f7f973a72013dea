#!/usr/bin/env python3
"""What has to be believed, as one text to read in order.

    tools/book.py            print the book: crate by crate, what contracts see of each public type, the
                             definitions that public contracts reach, and the public contracts
    tools/book.py --count    print the lines of each crate's definitions, and of all
    tools/book.py --check    fail where docs/what-to-believe.md lacks a word that a public contract reaches,
                             names one that none reaches, or states another number of lines, and where a
                             contract names a word or a type of this repository that is not found, where a
                             word of specs/ is not reached or one of specs/Inner/ is, and where a step of the
                             shared desk is not of its form (tools/steps.py)

A public contract is that of a function that another crate (or `main`, in the program's crate) can call. A word
is reached when such a contract, the model of a public type, or a reached definition names it; and so are the rules
that hold between any two atomic steps of threads. A type that is declared in code is reached in the same way; one
that has a model is seen by it, any other by its fields and variants. Words of std and of the toolchain's crates are
not followed, nor are words that only private contracts name, nor those that only the `invariant` of a type's fields
names: it promises a caller nothing that no contract says. A crate of tests alone has no contracts.

Some definitions compute what others say in the words of a rule, and a law proves the two the same. What is reached by such
a law alone, or by a word each of whose values a law pins, computes, and is proved the same: it is printed behind the
others, is listed by the page in rows that say so, and is not among the lines to believe.
"""
import os
import re
import sys

import arguments
import steps
from sources import TOP, WORD, DECLARED, Definition, crates_in_order, definitions_of, declared_in, contracts_of

PAGE = TOP / "docs" / "what-to-believe.md"
# What holds between any two atomic steps of threads, and what a step may tell: no single contract names it.
RULES = (
    ("pb_shared", "Rule", "DeskRule"),
    ("pb_shared", "Steps", "StepRule"),
    ("pb_shared", "Steps", "knowing"),
    ("pb_price", "Claims", "AreClaims"),
)
# Laws that say only that a definition computes just what the words of a rule say. What these alone reach is for running on
# small inputs, and nobody has to believe it.
COMPUTING_LAWS = {
    ("pb_price", "price_is_least_payment"),
    ("pb_rounds", "run_is_its_rule"),
    ("pb_rounds", "completion_is_its_rule"),
    ("pb_rounds", "count_is_computed"),
}
# Words each of whose values a law pins in the words of a rule, for every input, or for each one that a definition gives them
# (`last_given`: a voter whose ballot a legal journal leaves; `in_order`: an election and an order of its projects;
# `totals_of`, `runs_of`, `all_payments`, `in_file`: a count of an election; `voter_reason`: a voter of it; `voter_payments`:
# a voter of an election; `count_of`, `outcome_of`: an election, and options in range; `elected_by_votes`: an election, which
# a rule without shares counts; `needed`: a project with a supporter): whoever names them, the law says what they are, and
# nobody has to believe what computes them.
PINNED = {
    ("pb_core", "Money", "money_of"): ("pb_core", "money_is_what_its_text_names"),
    ("pb_core", "Order", "position_in"): ("pb_core", "orders_are_their_words"),
    ("pb_core", "Order", "ballot_in"): ("pb_core", "orders_are_their_words"),
    ("pb_core", "Order", "in_order"): ("pb_core", "orders_are_their_words"),
    ("pb_read", "Lengths", "max_length_of"): ("pb_read", "max_length_is_what_its_text_names"),
    ("pb_read", "Rows", "head_of"): ("pb_read", "names_say_what_they_name"),
    ("pb_read", "Columns", "project_columns"): ("pb_read", "names_say_what_they_name"),
    ("pb_read", "Columns", "vote_columns"): ("pb_read", "names_say_what_they_name"),
    ("pb_read", "MetaRows", "value_of"): ("pb_read", "names_say_what_they_name"),
    ("pb_read", "MetaKeys", "key_of"): ("pb_read", "names_say_what_they_name"),
    ("pb_read", "Faults", "fails_by"): ("pb_read", "names_say_what_they_name"),
    ("pb_read", "Voting", "is_among"): ("pb_read", "a_vote_names_places"),
    ("pb_read", "Voting", "names_only"): ("pb_read", "a_vote_names_places"),
    ("pb_read", "Voting", "ballot_of"): ("pb_read", "a_vote_names_places"),
    ("pb_rows", "ExactText", "exact_text"): ("pb_commands", "exact_amounts_are_their_words"),
    ("pb_price", "Supporters", "supporters_of"): ("pb_price", "supporters_approve"),
    ("pb_price", "Price", "price_at"): ("pb_price", "price_is_least_payment"),
    ("pb_rounds", "Count", "count_of"): ("pb_rounds", "count_is_computed"),
    ("pb_rounds", "Count", "is_too_fine"): ("pb_rounds", "count_is_computed"),
    ("pb_rounds", "Count", "has_too_fine_cost"): ("pb_rounds", "count_is_computed"),
    ("pb_rounds", "Count", "opening_share"): ("pb_rounds", "opening_share_is_largest"),
    ("pb_rounds", "Run", "outcome_of"): ("pb_rounds", "run_is_its_rule"),
    ("pb_rounds", "Run", "payment_of"): ("pb_rounds", "payments_are_their_words"),
    ("pb_rounds", "Run", "charged"): ("pb_rounds", "payments_are_their_words"),
    ("pb_rounds", "Run", "is_elected"): ("pb_rounds", "payments_are_their_words"),
    ("pb_rounds", "Payments", "paid_in_turn"): ("pb_rounds", "payments_are_their_words"),
    ("pb_rounds", "MostVotes", "most_votes_first"): ("pb_rounds", "most_votes_first_is_its_rule"),
    ("pb_rounds", "MostVotes", "comes_first"): ("pb_rounds", "tests_of_most_votes_are_their_words"),
    ("pb_rounds", "MostVotes", "fits"): ("pb_rounds", "tests_of_most_votes_are_their_words"),
    ("pb_rounds", "MostVotes", "is_taken"): ("pb_rounds", "tests_of_most_votes_are_their_words"),
    ("pb_rounds", "TieOrder", "by_file"): ("pb_rounds", "ties_have_one_order"),
    ("pb_desk", "Rows", "rows_from"): ("pb_desk", "rows_are_those_of_entries"),
    ("pb_export", "Export", "is_of_file"): ("pb_export", "files_are_so"),
    ("pb_page", "Markup", "written"): ("pb_page", "texts_stay_texts"),
    ("pb_page", "Amount", "grouped"): ("pb_page", "digits_stand_in_threes"),
    ("pb_page", "Amount", "shown"): ("pb_page", "amounts_stand_by_digits"),
    ("pb_page", "Amount", "rounded"): ("pb_page", "amounts_are_rounded"),
    ("pb_page", "Page", "width"): ("pb_page", "bars_are_ten_thousandths"),
    ("pb_reasons", "BesideVotes", "elected_by_votes"): ("pb_reasons", "most_votes_is_its_rule"),
    ("pb_reasons", "Counted", "is_selected"): ("pb_reasons", "winners_share_the_budget"),
    ("pb_reasons", "Totals", "totals_of"): ("pb_reasons", "winners_share_the_budget"),
    ("pb_reasons", "Money", "money_of"): ("pb_reasons", "largest_payments_are_their_words"),
    ("pb_reasons", "AllTies", "is_same_pair"): ("pb_reasons", "different_ties_are_their_words"),
    ("pb_reasons", "AllTies", "different"): ("pb_reasons", "different_ties_are_their_words"),
    ("pb_reasons", "AllTies", "all_ties"): ("pb_reasons", "all_ties_are_their_words"),
    ("pb_reasons", "AllTies", "runs_of"): ("pb_reasons", "ties_are_their_words"),
    ("pb_reasons", "Ties", "is_tied"): ("pb_reasons", "ties_are_their_words"),
    ("pb_reasons", "Ties", "ties_in"): ("pb_reasons", "ties_are_their_words"),
    ("pb_reasons", "Ties", "ties_with_added"): ("pb_reasons", "ties_are_their_words"),
    ("pb_reasons", "Reasons", "voter_payments"): ("pb_reasons", "payments_of_a_voter_are_their_words"),
    ("pb_reasons", "Reasons", "paid_for"): ("pb_reasons", "payments_of_a_voter_are_their_words"),
    ("pb_reasons", "Reasons", "round_of"): ("pb_reasons", "payments_of_a_voter_are_their_words"),
    ("pb_reasons", "Reasons", "project_reason"): ("pb_commands", "endings_are_their_words"),
    ("pb_reasons", "Reasons", "voter_reason"): ("pb_commands", "voters_are_their_words"),
    ("pb_reasons", "Reasons", "all_payments"): ("pb_commands", "voters_are_their_words"),
    ("pb_reasons", "CountedElection", "in_file"): ("pb_commands", "file_order_is_that_of_places"),
    ("pb_reasons", "Fairness", "losers"): ("pb_reasons", "rows_of_fairness_are_their_words"),
    ("pb_reasons", "Fairness", "needed"): ("pb_reasons", "rows_of_fairness_are_their_words"),
    ("pb_reasons", "Fairness", "spent"): ("pb_reasons", "rows_of_fairness_are_their_words"),
    ("pb_desk", "Replay", "replay"): ("pb_commands", "replay_is_its_steps"),
    ("pb_durable", "Opening", "cut_off"): ("pb_serving", "what_is_cut_off_is_its_words"),
    ("pb_script", "Admission", "open_to_all"): ("pb_script", "open_to_all_admits_all_rows"),
    ("pb_script", "ScriptFault", "at_row"): ("pb_commands", "rows_of_script_faults_are_their_words"),
    ("pb_faults", "Fault", "merged"): ("pb_commands", "out_of_memory_is_one_fault"),
    ("pb_commands", "Ballots", "last_given"): ("pb_commands", "ballots_name_their_entries"),
}


def words_of(text, imports):
    """The words of a text, and those that it names behind the name of a file of specs."""
    text = "\n".join(line.split(" -- ")[0] for line in text)
    words = {(name, name) for name in WORD.findall(text)}
    for alias in imports:
        if alias.endswith("."):
            words |= {(alias, name) for name in re.findall(rf"\b{re.escape(alias)}([\w'-]+)", text)}
    return words


class Reach:
    """The definitions and the types that the contracts reach, and those that these reach."""

    def __init__(self, contracts, definitions, types):
        self.definitions, self.types = definitions, types
        self.reached, self.reached_types, self.lost, self.waiting = {}, {}, [], []
        said = {(contract.crate, contract.title) for contract in contracts}
        self.pinned = {word for word, law in PINNED.items() if law in said}
        for crate, file, rule in RULES:
            self.lead_to((crate, file, rule), "the rules")
        laws = [contract for contract in contracts if (contract.crate, contract.title) in COMPUTING_LAWS]
        self.follow([contract for contract in contracts if contract not in laws])
        believed = set(self.reached)
        pinned, self.pinned = self.pinned, set()
        for word in sorted(pinned):
            self.lead_to(word, "the pinned words")
        self.follow(laws)
        self.computing = {key: one for key, one in self.reached.items() if key not in believed}
        self.reached = {key: one for key, one in self.reached.items() if key in believed}

    def follow(self, contracts):
        """What these contracts lead to."""
        for contract in contracts:
            self.lead(contract.text, contract.crate, None, contract.imports)
        while self.waiting:
            one = self.waiting.pop()
            if isinstance(one, Definition):
                self.lead(one.lines, one.crate, one.file, one.uses)
            elif not one.has_model:
                self.lead([x for x in one.text if not x.lstrip().startswith("///")], one.crate, None, one.imports)

    def lead(self, text, crate, file, imports):
        for alias, name in words_of(text, imports):
            target = imports.get(alias)
            if alias.endswith("."):
                target = (target[0], target[1], name)
            if target is None and file is not None and (file, name) in self.definitions[crate]:
                target = (crate, file, name)
            if target is not None:
                self.lead_to(target, crate)

    def lead_to(self, target, whose):
        crate, file, name = target
        if crate not in self.definitions:
            return
        if file.endswith(".TheConstants"):
            return  # a text of the program's own, which is read where it stands
        if target in self.pinned:
            return
        declared = DECLARED.match(file)
        if declared:
            self.put(self.types[crate].get(declared.group(1)), self.reached_types, target, whose)
        else:
            self.put(self.definitions[crate].get((file, name)), self.reached, target, whose)

    def put(self, one, reached, target, whose):
        if one is None:
            self.lost.append(f"{whose}: no definition and no type {target} is found")
        elif one.key() not in reached:
            reached[one.key()] = one
            self.waiting.append(one)


def files_in_order(crate, reached):
    """The files of a crate's reached definitions, each after those that it brings words in from."""
    needs = {}
    for definition in reached:
        if definition.crate == crate:
            others = {target[1] for target in definition.uses.values() if target[0] == crate}
            needs.setdefault(definition.file, set()).update(others)
    order = []

    def put(file):
        if file in needs and file not in order:
            order.append(file)
            for other in sorted(needs[file]):
                put(other)
            order.remove(file)
            order.append(file)

    for file in sorted(needs):
        put(file)
    return order


def print_definitions(crate, definitions, reached):
    for file in files_in_order(crate, reached.values()):
        print(f"\n-- {file}")
        seen, module = set(), ()
        for definition in definitions[crate].values():
            if definition.file == file and definition.key() in reached and definition.key() not in seen:
                seen.add(definition.key())
                if definition.module != module:
                    module = definition.module
                    print("\n" + "\n".join(module or ["-- of no module"]))
                print("\n" + "\n".join(definition.comment + definition.lines))


def print_book(crates, contracts, definitions, book):
    types = book.reached_types
    for crate in crates:
        own = [c for c in contracts if c.crate == crate]
        if not own:
            continue
        print("=" * 100 + f"\n{crate}\n" + "=" * 100)
        print("\n-- what contracts see of its types")
        for contract in own:
            if contract.is_model:
                print("\n" + contract.title)
                print("\n".join(contract.text))
        seen_by_fields = [one for _, one in sorted(types.items()) if one.crate == crate and not one.has_model]
        if seen_by_fields:
            print("\n-- types that the code declares, seen by their fields and variants")
        for declared in seen_by_fields:
            print("\n" + "\n".join(line for line in declared.text if not line.lstrip().startswith("#[")))
        print("\n-- definitions")
        print_definitions(crate, definitions, book.reached)
        if lines_of(book.computing, crate):
            print("\n-- what computes, and is proved the same as words above")
            print_definitions(crate, definitions, book.computing)
        if crate == steps.SOURCE.parent.name:
            print(f"\n-- its steps\n\n{steps.text_of_steps()}")
        print("\n-- what its public functions promise")
        for contract in own:
            if not contract.is_model:
                print("\n" + (f"[{contract.title}]" if contract.text[0].startswith(" ") else ""))
                print("\n".join(contract.text))
        print()


def lines_of(reached, crate):
    """How many lines the definitions have, with the heads of the modules that they stand in."""
    own = [one for one in reached.values() if one.crate == crate]
    modules = {(one.file, one.module) for one in own}
    return sum(len(one.lines) for one in own) + sum(len(module) for _, module in modules)


def words_named(rows):
    """The words of the page's rows, in their second column."""
    return {word for row in rows for word in re.findall(r"`([^`]+)`", row.split("|")[2])}


def compare(crate, what, words, named):
    wrong = [f"{crate}: the page lacks `{word}` among what {what}" for word in sorted(words - named)]
    return wrong + [f"{crate}: `{word}` is not among what {what}" for word in sorted(named - words)]


def check(crates, book):
    """What is wrong with the page or with the book: a line each."""
    reached = book.reached
    wrong = sorted(set(book.lost)) + steps.faults()
    text = PAGE.read_text()
    sections = re.split(r"^## ", text, flags=re.M)
    for crate in crates:
        section = next((s for s in sections if f"({crate})" in s.splitlines()[0]), "")
        rows = [line for line in section.splitlines() if line.startswith("| `")]
        computing = [row for row in rows if "*computes*" in row]
        believed = [row for row in rows if row not in computing]
        for what, part, listed in (
            ("has to be believed", reached, believed),
            ("computes, and is proved the same", book.computing, computing),
        ):
            words = {d.name for d in part.values() if d.crate == crate}
            wrong += compare(crate, what, words, words_named(listed))
        for (file, _), one in book.definitions[crate].items():
            is_reached = one.key() in reached or one.key() in book.computing
            if WORD.match(one.name) and is_reached == file.startswith("Inner."):
                wrong.append(f"{crate}: `{one.name}` stands in specs/{file.replace('.', '/')}, and is {'' if is_reached else 'not '}believed")
    total = sum(lines_of(reached, crate) for crate in crates)
    if f"**{total} lines**" not in text:
        wrong.append(f"the definitions have {total} lines, and the page doesn't say so")
    return wrong


def main():
    parser = arguments.Parser("book.py", __doc__)
    how = parser.add_mutually_exclusive_group()
    how.add_argument("--count", action="store_true", help="print the lines of each crate's definitions, and of all")
    how.add_argument("--check", action="store_true", help=f"fail where docs/{PAGE.name} is not true")
    given = parser.parse_args()
    crates = crates_in_order()
    definitions = {crate: definitions_of(crate) for crate in crates}
    contracts = [contract for crate in crates for contract in contracts_of(crate)]
    types = {crate: declared_in(crate) for crate in crates}
    book = Reach(contracts, definitions, types)
    reached = book.reached
    if given.count:
        for crate in crates:
            print(f"{crate:12} {lines_of(reached, crate):5}")
        print(f"{'all':12} {sum(lines_of(reached, crate) for crate in crates):5}")
    elif given.check:
        wrong = check(crates, book)
        print("\n".join(wrong))
        sys.exit(1 if wrong else 0)
    else:
        print_book(crates, contracts, definitions, book)


if __name__ == "__main__":
    try:
        main()
        sys.stdout.flush()
    except BrokenPipeError:
        # The reader has what it wanted, as `head` does. What is left in the buffer goes nowhere.
        os.dup2(os.open(os.devnull, os.O_WRONLY), sys.stdout.fileno())
