#!/usr/bin/env python3
"""Domains and windows of random scripts, against those that ncplan plans.

  planned_windows.py LIBRARY NCPLAN COUNT     LIBRARY: libnc_classic.so; NCPLAN: the built ncplan
"""
import ctypes as c, json, os, subprocess, sys

from library import OK, Extent, loaded, windows

sys.path.append(os.path.join(os.path.dirname(os.path.abspath(__file__)), "..", "..", ".ci"))
from random_scripts import random_script


def planned(ncplan, script):
    """The hints of a script's plan, and the domains of each put and of each get that all ranks do together."""
    done = subprocess.run([ncplan, "--json"], input=script.encode(), stdout=subprocess.PIPE, stderr=subprocess.DEVNULL, check=False)
    if done.returncode:
        return None
    plan = json.loads(done.stdout)
    hints = {hint["name"]: hint["value"] for hint in plan["hints"]}
    steps = [step for step in plan["steps"] if step["collective"]]
    return hints, [phase["domains"] for step in steps for phase in (step["put"], step["get"]) if phase["domains"]]


def domain_of(lib, step, aggregators, unit, number):
    domain = Extent()
    assert lib.ncv_domain(step[0], step[1], aggregators, unit, number, c.byref(domain)) == OK
    return domain.at, domain.at + domain.len


def main(path, ncplan, count):
    lib, phases, many = loaded(path), 0, 0
    for seed in range(int(count)):
        plan = planned(ncplan, random_script(seed))
        if plan is None:
            continue
        hints, all_domains = plan
        division = hints["cb_nodes"], hints["striping_unit"], hints["cb_buffer_size"]
        for domains in all_domains:
            asked = [(at, stop - at) for domain in domains for window in domain["windows"] for _, at, stop in window["pieces"]]
            wanted = [(domain["aggregator"], window["from"], window["to"] - window["from"], not window["hole"]) for domain in domains for window in domain["windows"]]
            code, step, found = windows(lib, asked, *division, len(wanted) + 1)
            assert code == OK and found == wanted, f"seed {seed}: {code} {found}, planned {wanted}"
            for domain in domains:
                assert domain_of(lib, step, *division[:2], domain["aggregator"]) == (domain["from"], domain["to"]), f"seed {seed}: {domain}"
            phases += 1
            many += len(wanted)
    assert phases, "no plan has a domain"
    print(f"{count} scripts: {many} windows of {phases} collective puts and gets as ncplan plans them")


main(*sys.argv[1:])
