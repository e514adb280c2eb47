#!/usr/bin/env python3
"""Writes clinics.shape and clinics.csv beside itself: clinics of a made-up city, what they treat, how many days one
waits for a first appointment, and what that costs. The same ones each time.
"""
import os
import random

HERE = os.path.dirname(os.path.abspath(__file__))
DISTRICTS = ["north", "east", "south", "west", "centre"]
# What is treated, with the usual days of waiting and the usual price.
SERVICES = {
    "skin": (40, 90),
    "eyes": (30, 75),
    "teeth": (12, 60),
    "fertility": (55, 320),
    "hiv_test": (3, 25),
    "addiction": (20, 0),
    "psychiatry": (70, 140),
    "oncology": (9, 210),
}
CLINICS = 60
STREETS = ["Abbey", "Bridge", "Canal", "Dock", "Elm", "Forge", "Garden", "Hill", "Island", "Jetty", "Kiln", "Lake"]


def rows():
    choice = random.Random(2017)
    for number in range(CLINICS):
        name = f"{STREETS[number % len(STREETS)]} {number // len(STREETS) + 1}"
        district = choice.choice(DISTRICTS)
        for service in sorted(choice.sample(list(SERVICES), k=choice.randint(3, 6))):
            days, price = SERVICES[service]
            yield name, district, service, choice.randint(days // 2, 2 * days), choice.randint(price * 3 // 4, price * 3 // 2)


table = list(rows())
with open(os.path.join(HERE, "clinics.shape"), "w") as out:
    out.write(f"table clinics\nrows {len(table)}\nclinic TEXT(8)\n")
    out.write(f"district ENUM({'|'.join(DISTRICTS)})\nservice ENUM({'|'.join(SERVICES)})\ndays UINT(9)\nprice UINT(16)\n")
with open(os.path.join(HERE, "clinics.csv"), "w") as out:
    out.write("clinic,district,service,days,price\n")
    out.writelines(",".join(str(field) for field in row) + "\n" for row in table)
