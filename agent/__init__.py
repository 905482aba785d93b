"""The agent of a farm: carries the lines of its processes, keeps contents and runs commands. It decides nothing that safety rests on."""
