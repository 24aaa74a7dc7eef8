"""The parts of tools/check-certificate, in the order in which they are used: files and texts, the network and its timetable, the
query with its expression, the automata, the graphs, and the clauses. They follow the pages of docs/ and share no code with modeplan."""
