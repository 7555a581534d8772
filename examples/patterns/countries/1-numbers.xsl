<?xml version="1.0" encoding="UTF-8"?>
<xsl:stylesheet version="1.0" xmlns:xsl="http://www.w3.org/1999/XSL/Transform">
  <xsl:import href="../lines.xsl"/>

  <xsl:template match="/" mode="witnesses">
    <xsl:for-each select="//iso_3166_entry[@numeric_code &gt;= 800 and @numeric_code &lt; 850]">
      <witness>
        <iso_3166_entry>
          <xsl:apply-templates select="@numeric_code" mode="shown"/>
          <xsl:apply-templates select="@name" mode="shown"/>
          <xsl:apply-templates select="@official_name" mode="shown"/>
        </iso_3166_entry>
      </witness>
    </xsl:for-each>
  </xsl:template>
</xsl:stylesheet>
