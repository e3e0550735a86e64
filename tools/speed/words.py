def main():
    text = "the quick brown fox jumps over the lazy dog and the small cat sleeps near the old door " * 500
    count = {}
    for word in text.split():
        if word in count:
            count[word] = count[word] + 1
        else:
            count[word] = 1
    for word in sorted(count):
        print(word, count[word])


main()
