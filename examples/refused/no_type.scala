object Main {
  def main() = {
    println(1)
  }
}
