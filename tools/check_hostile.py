#!/usr/bin/env python3
"""Runs the built program where the outside is against it, and compares how it ends.

    tools/check_hostile.py [-k TEXT] [--all]

What a case of cases/*.txt can't say is checked here: names at which there is no file, files that
change while they are read, inputs whose lines several threads find, outputs that are closed, limits
of the system on memory, files and threads, calls on files that fail and signals in a save,
directories that can't be written in or go away, and runs that are made again and again.
tools/hostile/ has the checks, by subject; each is a function whose name is its claim. A file that
breaks a limit of scripts or plans has to be refused in little time and memory, as
tools/fuzzing/reader.py says.

A line for each check has its runs, by status, where a signal is negative. What differs stands below
it, and then the tool ends with 1. Without --all the checks are left out that take gigabytes, and
those that take chances try less often. With -k only those are made whose name has TEXT. The program
is that of crates/spark_run/out, or the file SPARK_RUN; where there is none this says so and ends
with 0. Where root runs this, whom no folder and no limit on threads stops, the checks of these run
the program as another user.
"""
import argparse
import os
import pathlib
import sys
import time
from collections.abc import Callable, Iterator

from hostile import calls, changes, devices, inputs, limits, longs, names, repeats, saves
from hostile.runs import Place, a_place

FEW, MANY = 4, 60
CHECKS: tuple[Callable[[Place], Iterator[str]], ...] = (
    inputs.the_reader_of_scripts_and_plans_agrees_with_the_cases,
    inputs.what_is_no_file_is_told_by_its_name,
    inputs.an_empty_device_is_an_empty_file,
    inputs.a_pipe_is_read_to_its_end,
    inputs.a_file_that_tells_no_length_is_read_to_its_end,
    inputs.a_broken_file_is_refused_in_little_time_and_memory,
    changes.a_file_may_grow_while_it_is_read,
    changes.a_file_may_be_cut_while_it_is_read,
    changes.a_file_may_be_replaced_while_it_is_read,
    changes.a_file_may_go_away_while_it_is_read,
    changes.a_script_or_a_plan_may_be_cut_while_it_is_read,
    longs.a_long_input_has_its_lines_however_many_find_them,
    longs.a_long_input_that_is_no_text_is_told,
    longs.a_long_input_is_read_where_no_thread_can_be_made,
    limits.a_closed_output_takes_nothing,
    limits.a_closed_error_leaves_the_status,
    limits.a_closed_input_is_not_missed,
    limits.a_pipe_that_nobody_reads_takes_nothing,
    limits.a_small_or_an_endless_stack_is_enough,
    limits.a_few_open_files_are_enough,
    limits.where_no_thread_can_be_made_the_text_is_the_same,
    limits.a_file_that_may_not_grow_is_a_device_fault,
    limits.an_output_that_may_not_grow_takes_some_first_bytes,
    limits.an_output_that_takes_some_bytes_has_these,
    limits.little_memory_is_told,
    limits.little_memory_in_a_save_is_told,
    calls.a_read_that_fails_is_told_by_its_name,
    calls.a_call_that_fails_leaves_what_the_table_says,
    calls.a_disk_that_goes_away_leaves_no_success_over_missing_parts,
    devices.a_device_without_room_is_told,
    saves.a_signal_leaves_no_success_over_missing_parts,
    saves.of_two_saves_to_a_directory_at_once_one_is_done,
    saves.a_directory_may_go_away_while_it_is_saved_to,
    saves.a_directory_may_be_removed_while_it_is_saved_to,
    saves.a_staging_area_may_go_away_while_it_is_saved_to,
    names.a_directory_that_cannot_be_made_is_a_device_fault,
    names.a_directory_may_have_any_name,
    names.a_path_that_is_too_long_is_a_device_fault,
    names.a_folder_that_may_not_be_written_in_gets_nothing,
    repeats.what_is_generated_is_the_same_with_one_executor_and_with_four,
    repeats.a_slow_attempt_may_get_a_copy,
    repeats.a_hundred_thousand_jobs_leave_no_thread_and_no_memory_behind,
)
LONG = (inputs.a_file_has_one_gibibyte_at_most,)


def found_by(check: Callable[[Place], Iterator[str]], place: Place) -> list[str]:
    """What a check finds wrong, be it that it can't be made."""
    try:
        return list(check(place))
    except (OSError, RuntimeError) as fault:
        return [f"not made: {fault!r}"]


def main() -> int:
    parser = argparse.ArgumentParser(description=__doc__.splitlines()[0])
    parser.add_argument("-k", metavar="TEXT", default="", help="only checks that have TEXT")
    parser.add_argument("--all", action="store_true", help="what takes long, and more rounds")
    arguments = parser.parse_args()
    top = pathlib.Path(__file__).resolve().parent.parent
    program = pathlib.Path(os.environ.get("SPARK_RUN", top / "crates/spark_run/out/spark_run"))
    if not os.access(program, os.X_OK):
        print(f"check_hostile: skipped, since {program} isn't built")
        return 0
    faults = runs = 0
    for check in CHECKS + (LONG if arguments.all else ()):
        if arguments.k not in check.__name__:
            continue
        before = time.monotonic()
        with a_place(program, MANY if arguments.all else FEW) as place:
            found = found_by(check, place)
        ends = ", ".join(f"{status}: {place.counts[status]}" for status in sorted(place.counts))
        seconds = time.monotonic() - before
        print(f"{check.__name__}: {ends} ({seconds:.1f} seconds)", *found, sep="\n  ", flush=True)
        faults += len(found)
        runs += place.counts.total()
    print(f"hostile: {runs} runs, {faults} not as expected")
    return 1 if faults else 0


if __name__ == "__main__":
    sys.exit(main())
