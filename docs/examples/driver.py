"""Plans each customer at the end of the first vehicle that takes it. Usage: driver.py INSTANCE CUSTOMERS VEHICLES"""
import subprocess, sys

class Board:
    def __init__(self, instance):
        self.pipe = subprocess.Popen(["dispatch", "run", instance, "/dev/stdin"], text=True,
                                     stdin=subprocess.PIPE, stdout=subprocess.PIPE)
        self.base = 0

    def ask(self, line):
        self.pipe.stdin.write(f"1 {line}\n")
        self.pipe.stdin.flush()
        reply = []
        while not reply or reply[-1].split()[0] in ("row", "event", "name"):
            line = self.pipe.stdout.readline()
            if not line:
                raise SystemExit("the run ended early: see standard error")
            reply.append(line.strip())
        if reply[0].startswith("committed"):
            self.base = int(reply[0].split()[1])
        return reply

def plan(board, customers, vehicles):
    for what in ("move", "view"):
        board.ask(f"grant root {what} vehicle 1 {vehicles}")
        board.ask(f"grant root {what} customer 1 {customers}")
    length = [0] * (vehicles + 1)
    for customer in range(1, customers + 1):
        for vehicle in range(1, vehicles + 1):
            place = length[vehicle] + 1
            [reply] = board.ask(f"insert {customer} {vehicle} {place} {board.base}")
            print(f"customer {customer} on vehicle {vehicle}: {reply}")
            if reply.startswith("committed"):
                length[vehicle] += 1
                break

board = Board(sys.argv[1])
plan(board, int(sys.argv[2]), int(sys.argv[3]))
print("\n".join(board.ask("list")))
board.pipe.stdin.close()
print("status", board.pipe.wait())
