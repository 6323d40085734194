"""What ./workbench starts; python3 -m workbench does the same."""
from tools.workbench import command

if __name__ == "__main__":
    command.main()
