"""Tasks that run side by side, each a process, those first on which the longest chain of others waits."""
import time

import building


class Task:
    """A process to run once the tasks that it needs are done. `cost` is what it is thought to take, in seconds.

    `begin(slot)` starts it and returns the `Popen`; no two tasks that run have the same slot. `end(status)` returns whether all is well;
    it also runs where the process is ended before its time, with the status `None`."""

    def __init__(self, name, needs=(), cost=1):
        self.name = name
        self.needs = list(needs)
        self.cost = cost
        self.seconds = None

    def begin(self, slot):
        raise NotImplementedError

    def end(self, status):
        return status == 0


class Tasks:
    """What is to be done, what runs, and what is done."""

    def __init__(self, tasks, most):
        self.waiting = list(tasks)
        self.running = {}
        self.done = []
        self.failed = []
        self.most = most
        self.chains = {}
        for task in tasks:
            self.chain(task)

    def chain(self, task):
        """The costs of a task and of the longest chain of tasks that wait for it."""
        if task.name not in self.chains:
            above = [it for it in self.waiting if task.name in it.needs]
            self.chains[task.name] = task.cost + max(map(self.chain, above), default=0)
        return self.chains[task.name]

    def pace(self):
        """Seconds taken per second of cost, of the tasks that are done and had more than a fifth of their cost to do."""
        done = [task for task in self.done if task.seconds > task.cost / 5]
        return sum(task.seconds for task in done) / sum(task.cost for task in done) if len(done) > 2 else 1

    def seconds_left(self):
        """About how long what is left takes: all of it side by side, or its longest chain."""
        now = time.monotonic()
        running = {task: max(task.cost - (now - begun), 0) for task, _, _, begun in self.running.values()}
        whole = sum(task.cost for task in self.waiting) + sum(running.values())
        chains = [self.chains[task.name] for task in self.waiting]
        chains += [self.chains[task.name] - task.cost + left for task, left in running.items()]
        return self.pace() * max(whole / self.most, max(chains, default=0))

    def start_ready(self):
        """Starts what can start, the longest chain first."""
        done = {task.name for task in self.done}
        ready = [task for task in self.waiting if done.issuperset(task.needs)]
        ready.sort(key=lambda task: -self.chains[task.name])
        free = [slot for slot in range(self.most) if slot not in self.running]
        for task, slot in zip(ready, free):
            self.waiting.remove(task)
            self.running[slot] = (task, task.begin(slot), slot, time.monotonic())

    def ended(self):
        """A task that has ended, whether it did well, and how long it took; waits for one."""
        while True:
            for task, process, slot, begun in list(self.running.values()):
                status = process.poll()
                if status is not None:
                    del self.running[slot]
                    task.seconds = time.monotonic() - begun
                    building.forget_orphans({it.pid for _, it, _, _ in self.running.values()})
                    return task, task.end(status)
            time.sleep(0.1)

    def run(self, report, goes_on):
        """Runs all tasks; calls `report(task, is_well)` as each ends. Unless it `goes_on`, the first that fails ends the run."""
        try:
            self.start_ready()
            while self.running:
                task, is_well = self.ended()
                (self.done if is_well else self.failed).append(task)
                report(task, is_well)
                if is_well or goes_on:
                    self.start_ready()
                else:
                    break
        finally:
            self.stop()

    def stop(self):
        """Ends what runs."""
        building.end_descendants()
        for task, process, _, _ in self.running.values():
            process.wait()
            task.end(None)
        self.running = {}
