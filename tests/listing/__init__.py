"""The program's command `states`: the states that a run left, as pfctl(8) shows them, and as JSON."""
