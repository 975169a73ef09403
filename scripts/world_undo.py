"""The way back: the old files that a call kept take the places of those that it wrote, by the same exchange."""
import json
import os
import re

from region_files import REGION_NAME
from world_exchange import RECORD, Exchange, check_near, copied, seen, working_folder
from world_faults import DONE, Problem
from world_places import check_folder, hold_region, hold_session, is_ours, replaceable
from world_run import Call, check_free
from stops import unstopped_behind


class Undo(Call):
    """A call that brings old files back. What it replaces it keeps, as each call does."""

    def run(self, stack):
        hold_region(self.world, stack)
        self.locks = [hold_session(top, stack) for top in self.world.tops]
        self.teller.tell("folder %s" % self.world.region, kind="folder", folder=self.world.region)
        if not self.finish_left():
            self.bring_back(self.chosen())
        return DONE

    def chosen(self):
        """The folder of old files that the call names, or the newest beside the region files."""
        if self.words.old is not None:
            return os.path.abspath(self.words.old)
        begins = self.world.name + ".before-"
        form = re.compile(re.escape(begins) + r"[0-9]{4}-[0-9]{2}-[0-9]{2}-[0-9]{6}(-more)*")
        found = list(filter(form.fullmatch, sorted(os.listdir(self.world.parent))))
        if not found:
            raise Problem("there is no folder %s*; --from names the folder of old files; nothing is done" % os.path.join(self.world.parent, begins))
        return os.path.join(self.world.parent, found[-1])

    def bring_back(self, old):
        record = self.record(old)
        back, written = [*record["replaced"], *record["removed"]], {**record["replaced"], **record["added"]}
        back.sort(key=lambda name: (REGION_NAME.fullmatch(name) is not None, name))
        files = self.unchanged(written, record["removed"], old)
        check_folder(self.world.region, files)
        check_free(self.world.parent, 2 * sum(os.stat(os.path.join(old, name)).st_size for name in back))
        with working_folder(self.world) as work, unstopped_behind():
            check_near(self.world, work, next(iter(files)))
            exchange = Exchange(self.world, work)
            os.mkdir(exchange.packed)
            # Copies, since the game writes into what then is the region's file.
            for name in back:
                copied(os.path.join(old, name), os.path.join(exchange.packed, name))
            self.exchange_files(exchange, files, (back, sorted(record["added"])), self.backup(), "brought back from %s" % old)

    def record(self, old):
        """What the call wrote whose old files these are."""
        try:
            with open(os.path.join(old, RECORD), encoding="ascii") as file:
                record = json.load(file)
            if not all(map(is_ours, [*record["replaced"], *record["added"], *record["removed"]])) or not record["replaced"]:
                raise ValueError
        except FileNotFoundError as why:
            os.listdir(old)
            raise Problem("%s has no record of what took its files' places, so move them by hand; nothing is done" % old) from why
        except (ValueError, KeyError, TypeError) as why:
            raise Problem("%s is no record of this command; nothing is done" % os.path.join(old, RECORD)) from why
        for name in [*record["replaced"], *record["removed"]]:
            if not os.path.isfile(os.path.join(old, name)):
                raise Problem("%s is not in %s any more; nothing is done" % (name, old))
        return record

    def unchanged(self, written, removed, old):
        """The files that the call wrote, by their names. Refuses where one was changed since, or one that it removed is there again."""
        region = self.world.region
        changed = [name for name, mark in sorted(written.items()) if seen(os.path.join(region, name)) != mark]
        changed += [name for name in removed if os.path.lexists(os.path.join(region, name))]
        if changed:
            raise Problem("%s changed since %s was kept, as by the game; nothing is done" % (", ".join(changed), old))
        return {name: replaceable(region, name) for name in written}
