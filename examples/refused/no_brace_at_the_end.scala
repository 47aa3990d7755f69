object Main {
  def main(): Unit = {
    println(1)
  }
