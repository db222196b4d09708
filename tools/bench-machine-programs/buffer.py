def main():
    buffer, total = [], 0
    for i in range(1000000):
        buffer.append(i)
    for i in range(1000000):
        total += buffer[i]
    for i in range(1000000):
        buffer.pop()
    print(total)
main()
