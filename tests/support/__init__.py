"""What the tests share: the program as a process, tables of cases, servers on ports, and a client that shares no code with them."""
